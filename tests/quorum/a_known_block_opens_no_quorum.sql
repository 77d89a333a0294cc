-- A block that is known is answered so with a quorum too: no replica fetches it, and nothing is pending.
CREATE TABLE t (c UInt64) ENGINE = ReplicatedMergeTree ORDER BY c;
INSERT INTO t VALUES (1);
@r2 SYSTEM STOP FETCHES t;
INSERT INTO t SETTINGS insert_quorum = 2 VALUES (1);
@r2 INSERT INTO t SETTINGS insert_quorum = 2 VALUES (1);
@r2 SYSTEM START FETCHES t;
INSERT INTO t SETTINGS insert_quorum = 2 VALUES (1);
@r2 SHOW PARTS FROM t;
@r2 SELECT c FROM t SETTINGS select_sequential_consistency = 1;
INSERT INTO t SETTINGS insert_quorum = 2 VALUES (2);
