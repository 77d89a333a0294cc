-- Right sides read the old row, an Int64 wraps at both ends, and groups and sums are of the changed rows.
CREATE TABLE s (k UInt64, a Int64, b Int64, x String, y String) ENGINE = ReplicatedMergeTree ORDER BY k;
INSERT INTO s VALUES (1, 1, -2, 'x', ''), (2, 3, 4, 'y', 'z');
ALTER TABLE s UPDATE a = b, b = a, y = x, x = 'it''s' WHERE k = 1;
SELECT * FROM s SYNC;
ALTER TABLE s UPDATE a = a - 9223372036854775807, b = b + 9223372036854775807 WHERE x != 'y' OR a > 3;
@r2 SELECT min(a), max(b), x FROM s GROUP BY x SYNC;
ALTER TABLE s DELETE WHERE NOT (y = 'x' AND k < 2);
SELECT count(), sum(a) FROM s SYNC;
WAIT MUTATION s 2;
SELECT k, y FROM s WHERE x = 'it''s';
