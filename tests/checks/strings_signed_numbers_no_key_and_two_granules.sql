-- Strings, signed numbers, no key, and two granules.
CREATE TABLE s (x String, n Int64) ENGINE = ReplicatedMergeTree ORDER BY tuple() SETTINGS index_granularity = 2;
INSERT INTO s VALUES ('b',-1),('',2),('it''s',-9223372036854775808);
CHECK TABLE s;
check table s;
