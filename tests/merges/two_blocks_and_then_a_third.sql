-- The range of a merged part spans all, and its level is one above.
CREATE TABLE t (a UInt64) ENGINE = ReplicatedMergeTree ORDER BY a;
INSERT INTO t VALUES (1);
@r2 INSERT INTO t VALUES (2);
OPTIMIZE TABLE t FINAL;
INSERT INTO t VALUES (3);
SHOW PARTS FROM t;
OPTIMIZE TABLE t FINAL;
@r2 SYSTEM SYNC REPLICA t;
@r2 SHOW PARTS FROM t;
