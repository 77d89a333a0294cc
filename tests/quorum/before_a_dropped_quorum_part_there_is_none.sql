-- Where the last quorum part is dropped there is none: the one before it doesn't come back.
REPLICAS 3;
CREATE TABLE p (k UInt64) ENGINE = ReplicatedMergeTree PARTITION BY k ORDER BY k;
INSERT INTO p SETTINGS insert_quorum = 2 VALUES (1);
@r3 SELECT k FROM p SETTINGS select_sequential_consistency = 1;
INSERT INTO p SETTINGS insert_quorum = 2 VALUES (2);
@r3 SELECT k FROM p SETTINGS select_sequential_consistency = 1;
ALTER TABLE p DROP PARTITION 2;
@r3 SELECT k FROM p SETTINGS select_sequential_consistency = 1;
@r1 SELECT k FROM p SETTINGS select_sequential_consistency = 1;
