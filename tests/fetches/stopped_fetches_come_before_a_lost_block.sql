-- Stopped fetches come before a block that no replica has which is up. The log isn't even copied.
REPLICAS 3;
CREATE TABLE t (c UInt64) ENGINE = ReplicatedMergeTree ORDER BY c;
INSERT INTO t VALUES (1);
KILL r1;
@r2 SYSTEM STOP FETCHES t;
@r2 SYSTEM SYNC REPLICA t;
@r2 SELECT c FROM t SYNC;
@r2 OPTIMIZE TABLE t FINAL;
@r3 SYSTEM SYNC REPLICA t;
@r2 SYSTEM START FETCHES t;
@r2 SYSTEM SYNC REPLICA t;
@r2 SHOW PARTS FROM t;
