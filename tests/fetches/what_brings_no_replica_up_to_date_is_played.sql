-- A replica with stopped fetches takes all statements but those that bring it up to date; a drop is done at once.
CREATE TABLE t (k UInt64, c UInt64) ENGINE = ReplicatedMergeTree ORDER BY k;
@r2 SYSTEM STOP FETCHES t;
INSERT INTO t VALUES (1,1);
@r2 INSERT INTO t VALUES (2,2);
@r2 INSERT INTO t VALUES (1,1);
@r2 SELECT k FROM t;
@r2 EXPLAIN SELECT k FROM t;
@r2 ALTER TABLE t UPDATE c = 3 WHERE k = 1;
@r2 SYSTEM RESTART REPLICA t;
@r2 SHOW PARTS FROM t;
@r2 SYSTEM STOP FETCHES t;
@r2 ALTER TABLE t DROP PARTITION tuple();
@r2 SHOW PARTS FROM t;
@r2 CHECK TABLE t;
@r2 SYSTEM SYNC REPLICA t;
@r2 SYSTEM START FETCHES t;
@r2 SYSTEM START FETCHES t;
@r2 SYSTEM SYNC REPLICA t;
