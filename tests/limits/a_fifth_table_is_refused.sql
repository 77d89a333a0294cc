-- There are at most four tables.
CREATE TABLE a (c UInt64) ENGINE = ReplicatedMergeTree ORDER BY c;
CREATE TABLE b (c UInt64) ENGINE = ReplicatedMergeTree ORDER BY c;
CREATE TABLE c (c UInt64) ENGINE = ReplicatedMergeTree ORDER BY c;
CREATE TABLE d (c UInt64) ENGINE = ReplicatedMergeTree ORDER BY c;
CREATE TABLE e (c UInt64) ENGINE = ReplicatedMergeTree ORDER BY c;
