-- Two of three granules may have a 1.
CREATE TABLE t (c UInt64) ENGINE = ReplicatedMergeTree ORDER BY c SETTINGS index_granularity = 2;
INSERT INTO t VALUES (1),(1),(1),(1),(5);
EXPLAIN SELECT count() FROM t WHERE c = 1;
SELECT count() FROM t WHERE c = 1;
