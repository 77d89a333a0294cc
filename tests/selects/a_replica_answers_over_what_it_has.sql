-- A SELECT reads what its replica has; with SYNC it has all.
CREATE TABLE t (c UInt64) ENGINE = ReplicatedMergeTree ORDER BY c;
INSERT INTO t VALUES (7),(8);
@r2 SELECT count(), sum(c) FROM t;
@r2 SELECT sum(c) FROM t SYNC;
