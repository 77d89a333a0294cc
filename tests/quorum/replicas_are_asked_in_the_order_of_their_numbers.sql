-- The writer is noted first, then those that are up in the order of their numbers, until the quorum is met.
REPLICAS 4;
CREATE TABLE t (c UInt64) ENGINE = ReplicatedMergeTree ORDER BY c;
@r3 INSERT INTO t SETTINGS insert_quorum = 3 VALUES (1);
@r1 SHOW PARTS FROM t;
@r2 SHOW PARTS FROM t;
@r4 SHOW PARTS FROM t;
KILL r1;
@r3 INSERT INTO t SETTINGS insert_quorum = 3 VALUES (2);
@r2 SHOW PARTS FROM t;
@r4 SHOW PARTS FROM t;
RESTART r1;
@r1 SHOW PARTS FROM t;
@r4 SELECT c FROM t SETTINGS select_sequential_consistency = 1;
@r1 SELECT c FROM t SETTINGS select_sequential_consistency = 1;
