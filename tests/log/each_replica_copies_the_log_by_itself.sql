-- Blocks of both replicas, their merge, a mutation and a drop come to the other one when it is brought up to date.
CREATE TABLE t (a UInt64) ENGINE = ReplicatedMergeTree ORDER BY a;
INSERT INTO t VALUES (1);
@r2 INSERT INTO t VALUES (2);
SYSTEM SYNC REPLICA t;
SHOW PARTS FROM t;
@r2 SHOW PARTS FROM t;
OPTIMIZE TABLE t FINAL;
SHOW PARTS FROM t;
@r2 SHOW PARTS FROM t;
@r2 SYSTEM SYNC REPLICA t;
@r2 SHOW PARTS FROM t;
ALTER TABLE t DELETE WHERE a = 7;
ALTER TABLE t DROP PARTITION tuple();
SHOW PARTS FROM t;
@r2 SHOW PARTS FROM t;
@r2 SYSTEM SYNC REPLICA t;
@r2 SHOW PARTS FROM t;
