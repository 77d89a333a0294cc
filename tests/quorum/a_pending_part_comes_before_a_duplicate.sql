-- A pending part comes before the answer that a block is known, which an insert without a quorum gets.
CREATE TABLE t (c UInt64) ENGINE = ReplicatedMergeTree ORDER BY c;
@r2 SYSTEM STOP FETCHES t;
INSERT INTO t SETTINGS insert_quorum = 2 VALUES (1);
INSERT INTO t SETTINGS insert_quorum = 2 VALUES (1);
@r2 INSERT INTO t SETTINGS insert_quorum = 2 VALUES (1);
INSERT INTO t VALUES (1);
INSERT INTO t SETTINGS insert_quorum = 1 VALUES (1);
@r2 INSERT INTO t SETTINGS insert_quorum = 0 VALUES (1);
@r2 SYSTEM START FETCHES t;
@r2 SYSTEM SYNC REPLICA t;
INSERT INTO t SETTINGS insert_quorum = 2 VALUES (1);
