-- In a window of two the block before the last is known.
CREATE TABLE t (c UInt64) ENGINE = ReplicatedMergeTree ORDER BY c SETTINGS replicated_deduplication_window = 2;
INSERT INTO t VALUES (1);
INSERT INTO t VALUES (2);
INSERT INTO t VALUES (1);
