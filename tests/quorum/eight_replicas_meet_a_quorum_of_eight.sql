-- All eight replicas note a block. With one of them down seven do.
REPLICAS 8;
CREATE TABLE t (c UInt64) ENGINE = ReplicatedMergeTree ORDER BY c;
@r5 INSERT INTO t SETTINGS insert_quorum = 8 VALUES (1);
@r8 SELECT c FROM t SETTINGS select_sequential_consistency = 1;
@r5 INSERT INTO t SETTINGS insert_quorum = 9 VALUES (2);
KILL r5;
@r8 INSERT INTO t SETTINGS insert_quorum = 8 VALUES (2);
@r8 INSERT INTO t SETTINGS insert_quorum = 7 VALUES (2);
@r1 SELECT c FROM t SETTINGS select_sequential_consistency = 1;
RESTART r5;
@r5 SELECT c FROM t SETTINGS select_sequential_consistency = 1;
@r1 SYSTEM STOP FETCHES t;
@r8 INSERT INTO t SETTINGS insert_quorum = 8 VALUES (3);
@r5 SHOW PARTS FROM t;
@r1 SHOW PARTS FROM t;
