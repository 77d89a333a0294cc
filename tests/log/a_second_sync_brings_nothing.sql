-- A replica that has the whole log gets nothing more, and loses nothing.
CREATE TABLE t (a UInt64) ENGINE = ReplicatedMergeTree ORDER BY a;
@r2 SYSTEM SYNC REPLICA t;
INSERT INTO t VALUES (1);
@r2 SHOW PARTS FROM t;
@r2 SYSTEM SYNC REPLICA t;
@r2 SHOW PARTS FROM t;
@r2 SYSTEM SYNC REPLICA t;
@r2 SHOW PARTS FROM t;
SHOW PARTS FROM t;
