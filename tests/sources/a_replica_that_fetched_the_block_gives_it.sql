-- Another replica that fetched the block before gives it, unless it is down itself.
REPLICAS 3;
CREATE TABLE t (c UInt64) ENGINE = ReplicatedMergeTree ORDER BY c;
INSERT INTO t VALUES (1);
@r2 SYSTEM SYNC REPLICA t;
KILL r1;
KILL r2;
@r3 SELECT c FROM t SYNC;
RESTART r2;
@r3 SELECT c FROM t SYNC;
@r3 SHOW PARTS FROM t;
