-- A field with a comma, a quote or an end of line is quoted, and an empty one that is alone. Sums may be negative.
CREATE TABLE t (s String, n UInt64) ENGINE = ReplicatedMergeTree ORDER BY tuple();
INSERT INTO t VALUES ('a,b', 1), ('say "hi"', 2), ('x\ny', 3), ('x\ry', 4), ('', 5);
INSERT INTO t VALUES ('plain text; ''no'' \\ marks', 18446744073709551615);
SELECT s, n FROM t;
CREATE TABLE u (s String) ENGINE = ReplicatedMergeTree ORDER BY s;
INSERT INTO u VALUES (''), ('"'), ('b');
SELECT s FROM u SYNC;
CREATE TABLE v (i Int64, n UInt64, least Int64) ENGINE = ReplicatedMergeTree ORDER BY i;
INSERT INTO v VALUES (-2, 18446744073709551615, -9223372036854775808), (1, 18446744073709551615, 0);
SELECT sum(i), sum(n), min(least) FROM v SYNC;
