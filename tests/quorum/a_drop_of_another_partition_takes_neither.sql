-- A drop takes the pending and the last quorum part of its own partition alone, and not one that comes later there.
REPLICAS 3;
CREATE TABLE p (k UInt64) ENGINE = ReplicatedMergeTree PARTITION BY k ORDER BY k;
INSERT INTO p SETTINGS insert_quorum = 2 VALUES (1);
INSERT INTO p VALUES (3);
@r2 SYSTEM STOP FETCHES p;
@r3 SYSTEM STOP FETCHES p;
INSERT INTO p SETTINGS insert_quorum = 2 VALUES (2);
ALTER TABLE p DROP PARTITION 3;
ALTER TABLE p DROP PARTITION 9;
INSERT INTO p SETTINGS insert_quorum = 2 VALUES (4);
@r3 SELECT k FROM p SETTINGS select_sequential_consistency = 1;
ALTER TABLE p DROP PARTITION 2;
@r3 SELECT k FROM p SETTINGS select_sequential_consistency = 1;
ALTER TABLE p DROP PARTITION 1;
@r3 SELECT k FROM p SETTINGS select_sequential_consistency = 1;
INSERT INTO p SETTINGS insert_quorum = 2 VALUES (1);
INSERT INTO p SETTINGS insert_quorum = 2 VALUES (2);
