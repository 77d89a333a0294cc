-- A sequential SELECT wants the last part whose quorum was met, and none before it: r3 lacks the first block.
REPLICAS 3;
CREATE TABLE t (c UInt64) ENGINE = ReplicatedMergeTree ORDER BY c;
INSERT INTO t SETTINGS insert_quorum = 2 VALUES (1);
@r3 INSERT INTO t SETTINGS insert_quorum = 2 VALUES (2);
@r1 SELECT c FROM t SETTINGS select_sequential_consistency = 1;
@r3 SELECT c FROM t SETTINGS select_sequential_consistency = 1;
@r2 SELECT c FROM t SETTINGS select_sequential_consistency = 1;
@r2 SELECT c FROM t;
@r2 SYSTEM SYNC REPLICA t;
@r2 SELECT c FROM t SETTINGS select_sequential_consistency = 1;
