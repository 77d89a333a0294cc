-- Each replica has its own block. The second one fetches the others and merges, and the third fetches what that made.
REPLICAS 3;
CREATE TABLE t (c UInt64) ENGINE = ReplicatedMergeTree ORDER BY c;
INSERT INTO t VALUES (1);
@r2 INSERT INTO t VALUES (2);
@r3 INSERT INTO t VALUES (3);
SHOW PARTS FROM t;
@r2 SHOW PARTS FROM t;
@r3 SHOW PARTS FROM t;
@r2 OPTIMIZE TABLE t FINAL;
SHOW PARTS FROM t;
@r2 SHOW PARTS FROM t;
@r3 SYSTEM SYNC REPLICA t;
@r3 SHOW PARTS FROM t;
SELECT count(), sum(c) FROM t;
@r3 SELECT count(), sum(c) FROM t;
