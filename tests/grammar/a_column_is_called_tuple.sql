-- `tuple` without parentheses is a column.
CREATE TABLE t (tuple UInt64) ENGINE = ReplicatedMergeTree() PARTITION BY tuple ORDER BY tuple SETTINGS index_granularity = 1
