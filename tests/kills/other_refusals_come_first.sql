-- Tables, replicas, columns, rows and types are looked at before whether the replica is down.
CREATE TABLE t (c UInt64) ENGINE = ReplicatedMergeTree ORDER BY c;
KILL r2;
@r2 SELECT c FROM u;
@r3 SELECT c FROM t;
@r2 SELECT d FROM t;
@r2 SELECT c, count() FROM t;
@r2 EXPLAIN SELECT d FROM t;
@r2 INSERT INTO t VALUES (1),(2,3);
@r2 INSERT INTO t (d) VALUES (1);
@r2 INSERT INTO t (c, c) VALUES (1,2);
@r2 ALTER TABLE t DELETE WHERE d = 1;
@r2 ALTER TABLE t UPDATE c = 1, c = 2 WHERE c = 1;
@r2 ALTER TABLE t UPDATE c = 'x' WHERE c = 1;
@r2 ALTER TABLE t UPDATE c = 1 WHERE c = 1;
@r2 ALTER TABLE t DROP PARTITION 1;
@r2 OPTIMIZE TABLE t PARTITION 1 FINAL;
