-- Sums are exact in 128 bits. Over no rows count and sum are 0, min and max the type's zero or the empty String.
CREATE TABLE big (g String, n UInt64, z Int64) ENGINE = ReplicatedMergeTree ORDER BY tuple();
INSERT INTO big VALUES ('a', 18446744073709551615, -9223372036854775808), ('a', 18446744073709551615, -1), ('b', 0, 9223372036854775807);
SELECT sum(n), sum(z), min(z), max(n), count() FROM big;
SELECT g, sum(n), sum(z) FROM big GROUP BY g;
SELECT sum(n), min(g), max(z), count() FROM big WHERE n = 1;
SELECT g, count() FROM big WHERE n = 1 GROUP BY g;
-- A row stands in the answer as often as it does in the table.
SELECT g FROM big WHERE NOT (g = 'b' OR z = -1) SYNC;
SELECT g FROM big;
