-- Which granules a filter on the sorting key reads: of each part, those whose range of keys may hold a row.
CREATE TABLE events (minute UInt64, kind String) ENGINE = ReplicatedMergeTree ORDER BY minute SETTINGS index_granularity = 2;
INSERT INTO events VALUES (1, 'open'), (2, 'read'), (3, 'read'), (4, 'write'), (5, 'read'), (6, 'close');
INSERT INTO events VALUES (100, 'open'), (101, 'close');
EXPLAIN SELECT count() FROM events;
EXPLAIN SELECT count() FROM events WHERE minute = 3;
EXPLAIN SELECT count() FROM events WHERE minute > 50 AND kind = 'open';
-- A filter on another column reads all granules; so does one under OR.
EXPLAIN SELECT count() FROM events WHERE kind = 'open';
EXPLAIN SELECT count() FROM events WHERE minute = 3 OR minute = 4;
SELECT minute, kind FROM events WHERE minute >= 3 AND minute <= 5;
-- The marks of this part are 10, 20 and 30. A range may begin in the granule before an equal mark.
CREATE TABLE tens (c UInt64, s String) ENGINE = ReplicatedMergeTree ORDER BY (c, s) SETTINGS index_granularity = 2;
INSERT INTO tens VALUES (30, 'e'), (10, 'a'), (25, 'd'), (20, 'c'), (15, 'b');
EXPLAIN SELECT s FROM tens WHERE c = 20;
EXPLAIN SELECT s FROM tens WHERE c = 17;
EXPLAIN SELECT s FROM tens WHERE c = 9;
EXPLAIN SELECT s FROM tens WHERE c = 99;
EXPLAIN SELECT s FROM tens WHERE c < 20;
EXPLAIN SELECT s FROM tens WHERE c <= 19;
EXPLAIN SELECT s FROM tens WHERE c > 20;
EXPLAIN SELECT s FROM tens WHERE c > 21;
EXPLAIN SELECT s FROM tens WHERE c >= 30;
EXPLAIN SELECT s FROM tens WHERE c != 20;
EXPLAIN SELECT s FROM tens WHERE c > 21 AND c < 29;
EXPLAIN SELECT s FROM tens WHERE c >= 31 AND c < 29;
EXPLAIN SELECT s FROM tens WHERE c <= 15 AND s = 'e';
EXPLAIN SELECT s FROM tens WHERE c = 20 OR c = 20;
EXPLAIN SELECT s FROM tens WHERE NOT c >= 15;
EXPLAIN SELECT s FROM tens WHERE s = 'a';
-- Of granules with equal keys all are read.
CREATE TABLE ones (c UInt64) ENGINE = ReplicatedMergeTree ORDER BY c SETTINGS index_granularity = 2;
INSERT INTO ones VALUES (1), (1), (1), (1), (5);
EXPLAIN SELECT c FROM ones WHERE c = 1;
-- Without a sorting key no granule is left out.
CREATE TABLE plain (c UInt64) ENGINE = ReplicatedMergeTree ORDER BY tuple() SETTINGS index_granularity = 2;
INSERT INTO plain VALUES (3), (1), (2);
EXPLAIN SELECT c FROM plain WHERE c = 1;
