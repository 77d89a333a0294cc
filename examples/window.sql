-- How many blocks a table keeps in mind, so as to know them again: with a window of 2 the last two that were accepted.
CREATE TABLE two (c UInt64) ENGINE = ReplicatedMergeTree ORDER BY c SETTINGS replicated_deduplication_window = 2;
INSERT INTO two VALUES (1);
INSERT INTO two VALUES (2);
-- A retry inside the window, at any replica. It doesn't make the block stay longer.
@r2 INSERT INTO two VALUES (1);
INSERT INTO two VALUES (3);
INSERT INTO two VALUES (2);
-- Two blocks came after the first one: a retry past the window is a new block, and counted again.
INSERT INTO two VALUES (1);
SELECT c FROM two SYNC;

-- The window is the table's: the blocks of all partitions count. An INSERT of more blocks than it keeps isn't known
-- again, for each of its blocks is gone when its turn comes.
CREATE TABLE both (c UInt64) ENGINE = ReplicatedMergeTree PARTITION BY c ORDER BY c
SETTINGS index_granularity = 1, replicated_deduplication_window = 2;
INSERT INTO both VALUES (1), (2), (3);
INSERT INTO both VALUES (1), (2), (3);
INSERT INTO both VALUES (3), (2);
SELECT c, count() FROM both GROUP BY c SYNC;

-- With a window of 0 no block is known again.
CREATE TABLE none (c UInt64) ENGINE = ReplicatedMergeTree ORDER BY c SETTINGS replicated_deduplication_window = 0;
INSERT INTO none VALUES (1);
INSERT INTO none VALUES (1);
-- Without the setting it is 100.
CREATE TABLE usual (c UInt64) ENGINE = ReplicatedMergeTree PARTITION BY c ORDER BY c;
INSERT INTO usual VALUES (1), (2), (3), (4);
INSERT INTO usual VALUES (4), (1), (5);
