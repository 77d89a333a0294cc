-- A part that the last quorum part was merged into is as good for a sequential SELECT.
REPLICAS 3;
CREATE TABLE t (c UInt64) ENGINE = ReplicatedMergeTree ORDER BY c;
INSERT INTO t SETTINGS insert_quorum = 2 VALUES (1);
INSERT INTO t VALUES (2);
OPTIMIZE TABLE t FINAL;
@r1 SELECT c FROM t SETTINGS select_sequential_consistency = 1;
@r2 SELECT c FROM t SETTINGS select_sequential_consistency = 1;
@r3 SELECT c FROM t SETTINGS select_sequential_consistency = 1;
KILL r2;
@r3 SYSTEM SYNC REPLICA t;
@r3 SELECT c FROM t SETTINGS select_sequential_consistency = 1;
