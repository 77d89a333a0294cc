-- A pending part isn't merged with its neighbours; once its quorum is met it is.
CREATE TABLE t (c UInt64) ENGINE = ReplicatedMergeTree ORDER BY c;
INSERT INTO t VALUES (1);
@r2 SYSTEM STOP FETCHES t;
INSERT INTO t SETTINGS insert_quorum = 2 VALUES (2);
OPTIMIZE TABLE t FINAL;
INSERT INTO t VALUES (3);
OPTIMIZE TABLE t FINAL;
@r1 SHOW PARTS FROM t;
@r2 SYSTEM START FETCHES t;
@r2 OPTIMIZE TABLE t FINAL;
@r2 SELECT c FROM t SETTINGS select_sequential_consistency = 1;
OPTIMIZE TABLE t FINAL;
