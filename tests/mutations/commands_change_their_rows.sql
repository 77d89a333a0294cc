-- Right sides are of the old row, plus and minus wrap, literals are of each type, and a filter has AND, OR and NOT.
CREATE TABLE t (k UInt64, u UInt64, v UInt64, i Int64, s String) ENGINE = ReplicatedMergeTree ORDER BY k;
INSERT INTO t (k, u, v, i) VALUES (5, 1, 2, -1), (4, 1, 2, -1);
ALTER TABLE t UPDATE u = v, v = u WHERE k >= 5;
SELECT * FROM t SYNC;
ALTER TABLE t DROP PARTITION tuple();
INSERT INTO t (k, u, v, i) VALUES (5, 18446744073709551615, 1, 9223372036854775807);
ALTER TABLE t UPDATE u = u + 3, v = v - 3, i = i + 1 WHERE k = 5;
SELECT * FROM t SYNC;
ALTER TABLE t DROP PARTITION tuple();
INSERT INTO t (k, u, v, i) VALUES (5, 1, 2, 3);
ALTER TABLE t UPDATE s = 'x', i = -7 WHERE NOT k = 4;
SELECT * FROM t SYNC;
ALTER TABLE t DROP PARTITION tuple();
INSERT INTO t (k, u, v, i) VALUES (1, 2, 0, 0), (1, 3, 0, 0), (1, 4, 0, 0), (1, 5, 0, 0);
ALTER TABLE t DELETE WHERE u >= 3 AND NOT (u > 4 OR u = 3);
SELECT * FROM t SYNC;
ALTER TABLE t DROP PARTITION tuple();
