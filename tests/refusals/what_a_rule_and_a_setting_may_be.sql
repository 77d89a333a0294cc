-- What a rule or a setting may be, in the order of the checks.
CREATE TABLE p (k Int64, c UInt64) ENGINE = ReplicatedMergeTree PARTITION BY k ORDER BY c;
CREATE TABLE p (k Int64, c UInt64) ENGINE = ReplicatedMergeTree PARTITION BY z ORDER BY y;
CREATE TABLE p (c UInt64) ENGINE = ReplicatedMergeTree PARTITION BY intDiv(c, 0) ORDER BY c;
CREATE TABLE p (c UInt64) ENGINE = ReplicatedMergeTree PARTITION BY intDiv(c, 18446744073709551616) ORDER BY c;
CREATE TABLE p (c UInt64) ENGINE = ReplicatedMergeTree ORDER BY c SETTINGS replicated_deduplication_window = 100001, index_granularity = 65537;
CREATE TABLE p (c UInt64) ENGINE = ReplicatedMergeTree ORDER BY c SETTINGS replicated_deduplication_window = 4294967396;
CREATE TABLE p (c UInt64) ENGINE = ReplicatedMergeTree PARTITION BY intDiv(c, 18446744073709551615) ORDER BY c SETTINGS replicated_deduplication_window = 100000, index_granularity = 65536;
INSERT INTO p VALUES (18446744073709551615), (18446744073709551614);
