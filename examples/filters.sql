-- A filter is refused by its first unknown column, and after that by its first comparison of another type.
CREATE TABLE f (u UInt64, i Int64, s String) ENGINE = ReplicatedMergeTree ORDER BY u;
SELECT u FROM f WHERE s = 1 AND (x = 1 OR y = 1);
SELECT u FROM f WHERE u = 1 AND s = 1 AND i = 'x';
-- A number is a value of a column where the column's type holds it. -0 is 0, which only Int64 holds.
SELECT count() FROM f WHERE u = 18446744073709551615 OR i = -9223372036854775808 OR i = 9223372036854775807 OR i = -0;
SELECT count() FROM f WHERE u = 18446744073709551616;
SELECT count() FROM f WHERE u = -1;
SELECT count() FROM f WHERE u = -0;
SELECT count() FROM f WHERE i = -9223372036854775809;
SELECT count() FROM f WHERE i = 9223372036854775808;
-- NOT binds closest, AND before OR. Strings are compared byte by byte.
INSERT INTO f VALUES (2, -1, ''), (3, 0, 'a'), (4, 1, 'ab'), (5, -9223372036854775808, 'é');
SELECT u FROM f WHERE u >= 3 AND NOT (u > 4 OR u = 3);
SELECT u FROM f WHERE NOT u = 2 AND u < 4 OR s = '';
SELECT u FROM f WHERE i < 0;
SELECT u FROM f WHERE s >= 'ab';
SELECT u FROM f WHERE s != 'a' AND s <= 'a';
-- A select list is refused by its first unknown column, GROUP BY's names after its own, and then by types and grouping.
SELECT max(s), sum(s) FROM f GROUP BY x;
SELECT max(s), sum(s) FROM f GROUP BY u;
SELECT count(), u FROM f;
SELECT * FROM f GROUP BY u;
SELECT u, count() FROM f GROUP BY u, i;
