-- Of a sequential SELECT the columns come first, then the types and the setting, then the replica, then the quorum.
REPLICAS 3;
CREATE TABLE t (c UInt64) ENGINE = ReplicatedMergeTree ORDER BY c;
INSERT INTO t SETTINGS insert_quorum = 2 VALUES (1);
@r3 SELECT d FROM t SETTINGS select_sequential_consistency = 2;
@r3 SELECT c, count() FROM t SETTINGS select_sequential_consistency = 2;
@r3 SELECT c FROM t WHERE c = 'a' SETTINGS select_sequential_consistency = 2;
@r3 SELECT c FROM t SETTINGS select_sequential_consistency = 2;
@r3 SELECT c FROM t SETTINGS select_sequential_consistency = 1;
KILL r3;
@r3 SELECT c FROM t SETTINGS select_sequential_consistency = 2;
@r3 SELECT c FROM t SETTINGS select_sequential_consistency = 1;
RESTART r3;
@r3 SELECT c FROM t SETTINGS select_sequential_consistency = 1;
@r3 SELECT c FROM t SETTINGS select_sequential_consistency = 0;
