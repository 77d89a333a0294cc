-- SELECT without SYNC, EXPLAIN, SHOW PARTS and CHECK TABLE of a part that nobody merges with another.
CREATE TABLE t (c UInt64, s String) ENGINE = ReplicatedMergeTree ORDER BY c;
INSERT INTO t VALUES (3, 'c'), (1, 'a'), (2, 'b');
SELECT * FROM t;
SELECT min(s), max(c) FROM t WHERE c >= 2;
EXPLAIN SELECT * FROM t WHERE c = 2;
SHOW PARTS FROM t;
CHECK TABLE t;
SELECT nope FROM t;
