-- Hits of pages in partitions of a month. The first replica merges and changes them, and the second one reads them.
CREATE TABLE hits (day UInt64, user UInt64, page String, cost Int64)
ENGINE = ReplicatedMergeTree PARTITION BY intDiv(day, 100) ORDER BY (user, day);

@r1 INSERT INTO hits VALUES (20240131, 7, '/a', 5), (20240131, 9, '/a', 10), (20240201, 7, '/b', -2);
@r2 INSERT INTO hits VALUES (20240115, 8, '/b', 3);
@r1 INSERT INTO hits VALUES (20240102, 9, '/c', 4), (20240202, 8, '/a', 1);
@r1 SHOW PARTS FROM hits;
@r2 SHOW PARTS FROM hits;

-- January's blocks are merged, that of the second replica too: the first one brings itself up to date before. The
-- second one merges nothing yet.
@r1 OPTIMIZE TABLE hits PARTITION 202401 FINAL;
@r1 SHOW PARTS FROM hits;
@r2 SHOW PARTS FROM hits;

-- A hit of /a costs 3 less, and user 8 wants to be forgotten. Each mutation takes a number in both months: the hits
-- that come after it stay as they are.
@r1 ALTER TABLE hits UPDATE cost = cost - 3 WHERE page = '/a';
@r2 ALTER TABLE hits DELETE WHERE user = 8;
@r2 INSERT INTO hits VALUES (20240131, 8, '/a', 7), (20240301, 7, '/a', 2);
-- No part is mutated yet. With SYNC both mutations are applied while the parts are read, which stay as they are.
@r1 SELECT page, count(), sum(cost) FROM hits GROUP BY page;
@r1 SELECT page, count(), sum(cost) FROM hits GROUP BY page SYNC;
@r1 SELECT page, count(), sum(cost) FROM hits GROUP BY page;
-- A part for which they are pending isn't merged with one that came after them.
@r1 OPTIMIZE TABLE hits FINAL;

-- Each part is mutated up to the first one, and then up to the second one, which leaves no row of one of February's.
@r1 WAIT MUTATION hits 0;
@r1 SHOW PARTS FROM hits;
@r1 WAIT MUTATION hits 1;
@r1 EXPLAIN SELECT count() FROM hits;
-- Now each month becomes one part.
@r1 OPTIMIZE TABLE hits FINAL;

-- The second replica has what it took, until it is brought up to date. Then it has the same parts as the first one.
@r2 SELECT user, count(), sum(cost) FROM hits GROUP BY user;
@r2 SYSTEM SYNC REPLICA hits;
@r2 SELECT user, count(), sum(cost) FROM hits GROUP BY user;
