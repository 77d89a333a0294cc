-- The fifth of 20 turns is a merge, which the second replica does and the first one can't yet.
CREATE TABLE t (c UInt64) ENGINE = ReplicatedMergeTree ORDER BY c;
INSERT INTO t VALUES (1);
@r2 INSERT INTO t VALUES (2);
INSERT INTO t VALUES (3);
@r2 INSERT INTO t VALUES (4);
INSERT INTO t VALUES (5);
RUN t 20 SEED 2;
SELECT count(), sum(c) FROM t;
@r2 SELECT count(), sum(c) FROM t;
SELECT count(), sum(c) FROM t SYNC;
@r2 SELECT count(), sum(c) FROM t SYNC;
SHOW PARTS FROM t;
@r2 SHOW PARTS FROM t;
