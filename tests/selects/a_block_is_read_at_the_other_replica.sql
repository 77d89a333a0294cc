-- A block of the first replica is read at the second one.
CREATE TABLE t (c UInt64) ENGINE = ReplicatedMergeTree ORDER BY c;
@r1 INSERT INTO t VALUES (7),(8);
@r2 SELECT count(), sum(c) FROM t SYNC;
