-- In a window of two the third block lets the first go.
CREATE TABLE t (c UInt64) ENGINE = ReplicatedMergeTree ORDER BY c SETTINGS replicated_deduplication_window = 2;
INSERT INTO t VALUES (1);
INSERT INTO t VALUES (2);
INSERT INTO t VALUES (3);
INSERT INTO t VALUES (1);
SELECT count(), sum(c) FROM t SYNC;
