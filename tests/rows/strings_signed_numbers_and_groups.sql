-- Strings, signed numbers, data with quotes, groups, and refusals of each kind.
REPLICAS 3;
CREATE TABLE s (k String, g Int64, n UInt64) ENGINE = ReplicatedMergeTree ORDER BY (g, k) SETTINGS index_granularity = 2;
@r2 INSERT INTO s FORMAT CSV
"a,b",-1,18446744073709551615
"say ""x""",2,18446744073709551615
plain,-1,5
,2,7
;
@r3 INSERT INTO s (n, k) VALUES (1, 'it''s');
@r3 SELECT k, g, n FROM s;
SELECT g, k, count(), sum(n) FROM s GROUP BY g, k SYNC;
SELECT sum(n), min(k), max(g) FROM s SYNC;
SELECT nope FROM s;
SELECT k, sum(n) FROM s;
SELECT sum(k) FROM s;
INSERT INTO s VALUES ('x', 1, 2), ('y', 'z', 3);
INSERT INTO s (k, k) VALUES ('x', 'y');
@r4 SELECT * FROM s;
CREATE TABLE s (a UInt64) ENGINE = ReplicatedMergeTree ORDER BY a;
CREATE TABLE u (a UInt64, a Int64) ENGINE = ReplicatedMergeTree ORDER BY a;
CREATE TABLE u (a UInt64) ENGINE = ReplicatedMergeTree ORDER BY b;
CREATE TABLE u (a UInt64) ENGINE = ReplicatedMergeTree ORDER BY a SETTINGS index_granularity = 0;
EXPLAIN SELECT count() FROM s WHERE g < 0;
SHOW PARTS FROM s;
@r2 OPTIMIZE TABLE s FINAL;
SELECT count() FROM s SYNC;
