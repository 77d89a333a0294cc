-- Of two lost blocks the first one is told, until it can be had.
REPLICAS 3;
CREATE TABLE t (c UInt64) ENGINE = ReplicatedMergeTree ORDER BY c;
INSERT INTO t VALUES (1);
@r2 INSERT INTO t VALUES (2);
KILL r1;
KILL r2;
@r3 SELECT * FROM t SYNC;
RESTART r1;
@r3 SELECT * FROM t SYNC;
@r3 SELECT * FROM t;
KILL r1;
@r3 SYSTEM SYNC REPLICA t;
RESTART r2;
@r3 SYSTEM SYNC REPLICA t;
