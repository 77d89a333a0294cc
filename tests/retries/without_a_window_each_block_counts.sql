-- A window of 0 keeps nothing.
CREATE TABLE t (a UInt64) ENGINE = ReplicatedMergeTree ORDER BY a
SETTINGS replicated_deduplication_window = 0;
INSERT INTO t VALUES (1);
@r2 INSERT INTO t VALUES (1);
INSERT INTO t VALUES (1);
SELECT count(), sum(a) FROM t SYNC;
