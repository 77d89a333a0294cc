-- The rule's column and the key's are looked for first, then doubles, then types, then the settings.
CREATE TABLE t (a UInt64, a UInt64) ENGINE = ReplicatedMergeTree PARTITION BY intDiv(y, 0) ORDER BY x
SETTINGS index_granularity = 0, replicated_deduplication_window = 0;
CREATE TABLE t (a UInt64, a UInt64) ENGINE = ReplicatedMergeTree PARTITION BY intDiv(a, 0) ORDER BY x
SETTINGS index_granularity = 0, replicated_deduplication_window = 0;
CREATE TABLE t (a UInt64, a UInt64) ENGINE = ReplicatedMergeTree PARTITION BY intDiv(a, 0) ORDER BY a
SETTINGS index_granularity = 0, replicated_deduplication_window = 0;
CREATE TABLE t (a UInt64, s String) ENGINE = ReplicatedMergeTree PARTITION BY intDiv(s, 0) ORDER BY (a, a)
SETTINGS index_granularity = 0, replicated_deduplication_window = 0;
CREATE TABLE t (a UInt64, s String) ENGINE = ReplicatedMergeTree PARTITION BY intDiv(s, 1) ORDER BY a
SETTINGS index_granularity = 0, replicated_deduplication_window = 0;
CREATE TABLE t (a UInt64, i Int64) ENGINE = ReplicatedMergeTree PARTITION BY intDiv(i, 1) ORDER BY a
SETTINGS index_granularity = 0, replicated_deduplication_window = 0;
CREATE TABLE t (a UInt64) ENGINE = ReplicatedMergeTree PARTITION BY intDiv(a, 0) ORDER BY a
SETTINGS index_granularity = 0, replicated_deduplication_window = 0;
CREATE TABLE t (a UInt64) ENGINE = ReplicatedMergeTree PARTITION BY intDiv(a, 1) ORDER BY a
SETTINGS index_granularity = 0, replicated_deduplication_window = 0;
CREATE TABLE t (a UInt64) ENGINE = ReplicatedMergeTree PARTITION BY intDiv(a, 1) ORDER BY a
SETTINGS index_granularity = 1, replicated_deduplication_window = 100001;
CREATE TABLE t (s String, a UInt64) ENGINE = ReplicatedMergeTree PARTITION BY intDiv(a, 18446744073709551615) ORDER BY s
SETTINGS index_granularity = 65536, replicated_deduplication_window = 100000;
CREATE TABLE u (a UInt64) ENGINE = ReplicatedMergeTree ORDER BY tuple()
SETTINGS index_granularity = 1, replicated_deduplication_window = 0;
