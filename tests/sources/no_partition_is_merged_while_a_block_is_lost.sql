-- An OPTIMIZE merges nothing while a block is lost, also in another partition. A word that is no partition comes first.
CREATE TABLE p (k UInt64, c UInt64) ENGINE = ReplicatedMergeTree PARTITION BY k ORDER BY c;
INSERT INTO p VALUES (1,1),(2,1);
@r2 INSERT INTO p VALUES (2,2),(3,1);
KILL r1;
@r2 OPTIMIZE TABLE p FINAL;
@r2 OPTIMIZE TABLE p PARTITION 3 FINAL;
@r2 OPTIMIZE TABLE p PARTITION tuple() FINAL;
@r2 SHOW PARTS FROM p;
RESTART r1;
@r2 OPTIMIZE TABLE p FINAL;
