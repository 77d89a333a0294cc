-- An INSERT over two months makes a part in each; another replica reads both.
CREATE TABLE hits (day UInt64, user UInt64, page String, cost Int64)
ENGINE = ReplicatedMergeTree('/clickhouse/tables/1/hits', '{replica}')
PARTITION BY intDiv(day, 100) ORDER BY (user, day) SETTINGS index_granularity = 8192;
INSERT INTO hits FORMAT CSV
20240131,7,"/a",5
20240201,7,/b,-2
20240131,9,/a,10
;
@r2 SELECT user, count(), sum(cost) FROM hits GROUP BY user SYNC;
