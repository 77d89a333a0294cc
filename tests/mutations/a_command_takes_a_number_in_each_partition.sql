-- A command takes a number in each partition there is. Blocks of a higher number, and of a later partition, stay.
CREATE TABLE p (k UInt64, c UInt64) ENGINE = ReplicatedMergeTree PARTITION BY k ORDER BY k;
INSERT INTO p VALUES (1,1);
ALTER TABLE p UPDATE c = 9 WHERE c = 1;
INSERT INTO p VALUES (2,1),(1,1),(1,1);
SELECT * FROM p SYNC;
WAIT MUTATION p 0;
SHOW PARTS FROM p;
@r2 ALTER TABLE p UPDATE c = c + 1 WHERE c < 9;
SELECT * FROM p;
@r2 SELECT * FROM p SYNC;
@r2 WAIT MUTATION p 1;
@r2 SHOW PARTS FROM p;
SHOW PARTS FROM p;
