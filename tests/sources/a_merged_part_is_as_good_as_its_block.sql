-- A part that covers the block is as good: here a merged one of the third replica.
REPLICAS 3;
CREATE TABLE t (c UInt64) ENGINE = ReplicatedMergeTree ORDER BY c;
INSERT INTO t VALUES (1);
@r3 INSERT INTO t VALUES (2);
@r3 OPTIMIZE TABLE t FINAL;
KILL r1;
@r2 SELECT c FROM t SYNC;
@r2 SHOW PARTS FROM t;
