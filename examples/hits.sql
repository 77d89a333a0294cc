-- Hits of pages, loaded as CSV at two replicas, and what they cost for each user and page.
CREATE TABLE hits (day UInt64, user UInt64, page String, cost Int64)
ENGINE = ReplicatedMergeTree('/clickhouse/tables/1/hits', '{replica}') ORDER BY (user, day);

@r1 INSERT INTO hits FORMAT CSV
20240131,7,"/a",5
20240201,7,/b,-2
20240131,9,"/search?q=""x, y""",10
;
@r2 INSERT INTO hits FORMAT CSV
20240202,9,/a,3
20240203,7,/b,4
;
-- All hits, wherever they were loaded.
SELECT user, count(), sum(cost) FROM hits GROUP BY user SYNC;
SELECT page, min(cost), max(cost) FROM hits WHERE day >= 20240201 GROUP BY page SYNC;
SELECT * FROM hits WHERE user = 9 SYNC;
