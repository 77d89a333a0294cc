-- What a command may name and set, in the order of the checks. None of the refused ones gets an id.
CREATE TABLE s (k UInt64, g UInt64, a Int64, x String, y String) ENGINE = ReplicatedMergeTree PARTITION BY intDiv(g, 10) ORDER BY k;
ALTER TABLE s UPDATE z = 1 WHERE k = 1;
ALTER TABLE s UPDATE a = z WHERE w = 1;
ALTER TABLE s UPDATE a = 'b', a = 1 WHERE w = 1;
ALTER TABLE s DELETE WHERE k = 1 AND NOT w = 1;
ALTER TABLE s UPDATE a = 1, x = 'b', a = 2 WHERE k = 1;
ALTER TABLE s UPDATE a = 'b', a = 1 WHERE k = 1;
ALTER TABLE s UPDATE a = 'b' WHERE k = 1;
ALTER TABLE s UPDATE x = y, a = g WHERE k = 'z';
ALTER TABLE s UPDATE x = x + 1 WHERE k = 1;
ALTER TABLE s UPDATE a = a + 9223372036854775808 WHERE k = 1;
ALTER TABLE s UPDATE k = 1, x = y WHERE k = -1 OR a = 'b';
ALTER TABLE s DELETE WHERE a = 'b';
ALTER TABLE s UPDATE k = 'z' WHERE k = 1;
ALTER TABLE s UPDATE a = 1, k = 2 WHERE k = 1;
ALTER TABLE s UPDATE g = 1, k = 1 WHERE k = 1;
ALTER TABLE s UPDATE a = -9223372036854775808, x = '' WHERE g < 5;
