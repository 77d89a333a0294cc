-- The digest of each part that a replica has. Parts of the same bytes have one digest, whatever replica made them.
CREATE TABLE readings (day UInt64, sensor UInt64, value Int64, note String)
ENGINE = ReplicatedMergeTree PARTITION BY day ORDER BY sensor SETTINGS index_granularity = 2;
CHECK TABLE readings;
@r1 INSERT INTO readings VALUES (1, 12, -40, 'frost'), (1, 10, 215, ''), (2, 10, 220, '');
@r2 INSERT INTO readings VALUES (1, 11, 198, ''), (1, 10, 9999, 'broken');
CHECK TABLE readings;
-- The second replica has its own block alone, and then all.
@r2 CHECK TABLE readings;
@r2 SYSTEM SYNC REPLICA readings;
@r2 CHECK TABLE readings;

-- Both replicas merge by themselves, and come to the same bytes.
@r1 OPTIMIZE TABLE readings FINAL;
@r1 CHECK TABLE readings;
@r2 SYSTEM SYNC REPLICA readings;
@r2 CHECK TABLE readings;

-- A mutation that is pending changes no part; once it is done, the parts are others. The one of which it changed no row
-- has another name, and the bytes that it had.
@r1 ALTER TABLE readings DELETE WHERE note = 'broken';
@r1 CHECK TABLE readings;
@r1 WAIT MUTATION readings 0;
@r1 CHECK TABLE readings;
-- The second replica still has the parts from before, until it is brought up to date.
@r2 CHECK TABLE readings;
@r2 SYSTEM SYNC REPLICA readings;
@r2 CHECK TABLE readings;

-- One that restarts has the same parts.
KILL r2;
@r2 CHECK TABLE readings;
RESTART r2;
@r2 CHECK TABLE readings;

-- The name of a part is none of its bytes, nor is its partition: two tables with the same columns, key and rows.
CREATE TABLE a (c UInt64) ENGINE = ReplicatedMergeTree ORDER BY c;
CREATE TABLE b (c UInt64) ENGINE = ReplicatedMergeTree PARTITION BY intDiv(c, 100) ORDER BY c;
INSERT INTO a VALUES (8), (7);
INSERT INTO b VALUES (7);
INSERT INTO b VALUES (8);
OPTIMIZE TABLE b FINAL;
CHECK TABLE a;
CHECK TABLE b;
-- A part of which no row is left has the bytes of its columns.
ALTER TABLE a DELETE WHERE c > 0;
WAIT MUTATION a 0;
CHECK TABLE a;
ALTER TABLE a DROP PARTITION tuple();
CHECK TABLE a;
