-- Each block of an INSERT is brought to its quorum before the next one goes in.
REPLICAS 3;
CREATE TABLE p (k UInt64) ENGINE = ReplicatedMergeTree PARTITION BY k ORDER BY k;
INSERT INTO p SETTINGS insert_quorum = 2 VALUES (2),(1),(2);
@r1 SHOW PARTS FROM p;
@r2 SHOW PARTS FROM p;
@r3 SHOW PARTS FROM p;
@r2 SELECT k FROM p SETTINGS select_sequential_consistency = 1;
@r3 SELECT k FROM p SETTINGS select_sequential_consistency = 1;
