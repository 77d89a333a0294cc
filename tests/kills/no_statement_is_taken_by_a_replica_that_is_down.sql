-- Each kind of statement is refused by a replica that is down, an INSERT without rows too.
CREATE TABLE t (c UInt64) ENGINE = ReplicatedMergeTree ORDER BY c;
KILL r2;
@r2 INSERT INTO t VALUES (1);
@r2 INSERT INTO t FORMAT CSV
;
@r2 SELECT c FROM t;
@r2 SELECT c FROM t SYNC;
@r2 EXPLAIN SELECT c FROM t;
@r2 SHOW PARTS FROM t;
@r2 CHECK TABLE t;
@r2 ALTER TABLE t DELETE WHERE c = 1;
@r2 ALTER TABLE t DROP PARTITION tuple();
@r2 OPTIMIZE TABLE t FINAL;
@r2 SYSTEM SYNC REPLICA t;
@r2 SYSTEM RESTART REPLICA t;
