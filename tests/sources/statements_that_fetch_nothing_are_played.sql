-- A statement that fetches nothing is played while a block is lost.
CREATE TABLE t (c UInt64) ENGINE = ReplicatedMergeTree ORDER BY c;
INSERT INTO t VALUES (1);
KILL r1;
@r2 SELECT * FROM t;
@r2 EXPLAIN SELECT * FROM t;
@r2 SHOW PARTS FROM t;
@r2 CHECK TABLE t;
@r2 INSERT INTO t VALUES (2);
@r2 ALTER TABLE t DELETE WHERE c = 1;
@r2 SYSTEM RESTART REPLICA t;
RUN t 9 SEED 4;
