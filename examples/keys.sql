-- The orders of sorting keys, seen in the granules of one row each that a filter reads: from the one before the first
-- mark that may be in the range to the last one that is.
CREATE TABLE signed (z Int64) ENGINE = ReplicatedMergeTree ORDER BY z SETTINGS index_granularity = 1;
INSERT INTO signed VALUES (9223372036854775807), (0), (-1), (-9223372036854775808), (1);
EXPLAIN SELECT z FROM signed WHERE z <= -1;
EXPLAIN SELECT z FROM signed WHERE z >= 1;
CREATE TABLE unsigned (n UInt64) ENGINE = ReplicatedMergeTree ORDER BY n SETTINGS index_granularity = 1;
INSERT INTO unsigned VALUES (9223372036854775808), (18446744073709551615), (0), (9223372036854775807);
EXPLAIN SELECT n FROM unsigned WHERE n <= 9223372036854775807;
EXPLAIN SELECT n FROM unsigned WHERE n >= 9223372036854775808;
CREATE TABLE texts (s String, n UInt64) ENGINE = ReplicatedMergeTree ORDER BY (s, n) SETTINGS index_granularity = 1;
INSERT INTO texts VALUES ('é', 1), ('ab', 2), ('', 3), ('b', 4), ('a', 5);
EXPLAIN SELECT n FROM texts WHERE s = '';
EXPLAIN SELECT n FROM texts WHERE s <= 'ab';
EXPLAIN SELECT n FROM texts WHERE s >= 'z';
