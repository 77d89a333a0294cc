-- Visits in partitions of a month: that of a row is its day divided by 100, as 20240131 is of 202401.
CREATE TABLE visits (day UInt64, user UInt64, page String, seconds Int64)
ENGINE = ReplicatedMergeTree PARTITION BY intDiv(day, 100) ORDER BY (user, day) SETTINGS index_granularity = 2;

-- Each month of an INSERT makes a part, the earlier month first, whatever row comes first. Each counts from 0.
@r1 INSERT INTO visits FORMAT CSV
20240201,7,/b,20
20240131,7,/a,5
20240131,9,/a,10
20240105,8,/b,3
;
@r2 INSERT INTO visits
VALUES (20240229, 9, '/c', 40), (20240301, 7, '/a', 1), (20240210, 8, '/a', 2), (20240202, 7, '/b', 6);
@r1 INSERT INTO visits VALUES (20240111, 7, '/c', 9);

-- The replica has what it took. With SYNC it has all that was accepted, in order of month and then of number.
@r2 SELECT user, count(), sum(seconds) FROM visits GROUP BY user;
@r2 SELECT user, count(), sum(seconds) FROM visits GROUP BY user SYNC;
@r2 SELECT day, user FROM visits WHERE page = '/b';
-- Which granules of two rows a filter on the user reads, in the parts of all months.
@r2 EXPLAIN SELECT count() FROM visits WHERE user = 8;
-- The day isn't the first column of the sorting key: no granule is left out, and no month either.
@r2 EXPLAIN SELECT count() FROM visits WHERE day >= 20240301;
@r1 EXPLAIN SELECT count() FROM visits WHERE user < 8;

-- A column itself: a partition for each of its values. They are ordered as numbers, so 9 comes before 10.
CREATE TABLE shelves (shelf UInt64, item String) ENGINE = ReplicatedMergeTree PARTITION BY shelf ORDER BY item;
INSERT INTO shelves VALUES (10, 'cup'), (9, 'tea'), (18446744073709551615, 'pot'), (0, 'tray'), (10, 'jug');
SELECT shelf, count(), min(item) FROM shelves GROUP BY shelf;
-- A column that is left out is 0.
INSERT INTO shelves (item) VALUES ('saucer'), ('spoon');
-- No rule: one partition, which is called `all`.
CREATE TABLE notes (day UInt64, line String) ENGINE = ReplicatedMergeTree PARTITION BY tuple() ORDER BY day;
INSERT INTO notes VALUES (20240131, 'a'), (20240201, 'b');
