-- A drop of its partition takes the pending part: another quorum can be asked for, and the block is no longer known.
CREATE TABLE t (c UInt64) ENGINE = ReplicatedMergeTree ORDER BY c;
@r2 SYSTEM STOP FETCHES t;
INSERT INTO t SETTINGS insert_quorum = 2 VALUES (1);
INSERT INTO t SETTINGS insert_quorum = 2 VALUES (2);
ALTER TABLE t DROP PARTITION tuple();
INSERT INTO t SETTINGS insert_quorum = 2 VALUES (2);
INSERT INTO t SETTINGS insert_quorum = 2 VALUES (1);
@r2 SYSTEM START FETCHES t;
@r2 ALTER TABLE t DROP PARTITION tuple();
INSERT INTO t SETTINGS insert_quorum = 2 VALUES (1);
@r2 SELECT c FROM t SETTINGS select_sequential_consistency = 1;
