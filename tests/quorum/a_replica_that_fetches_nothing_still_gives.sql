-- A replica with stopped fetches takes a quorum insert, and others fetch the block from it.
CREATE TABLE t (c UInt64) ENGINE = ReplicatedMergeTree ORDER BY c;
@r2 SYSTEM STOP FETCHES t;
@r2 INSERT INTO t SETTINGS insert_quorum = 2 VALUES (1);
@r1 SHOW PARTS FROM t;
@r2 SHOW PARTS FROM t;
@r2 SELECT c FROM t SETTINGS select_sequential_consistency = 1;
@r2 INSERT INTO t VALUES (2);
@r1 SYSTEM SYNC REPLICA t;
@r1 SHOW PARTS FROM t;
