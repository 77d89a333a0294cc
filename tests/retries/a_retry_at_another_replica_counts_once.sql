-- A retry at another replica counts once.
CREATE TABLE t (c UInt64) ENGINE = ReplicatedMergeTree ORDER BY c;
INSERT INTO t VALUES (1);
@r2 INSERT INTO t VALUES (1);
INSERT INTO t VALUES (2);
SELECT count(), sum(c) FROM t SYNC;
