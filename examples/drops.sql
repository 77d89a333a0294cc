-- Readings of sensors in partitions of a day. A day that was loaded wrong is dropped, and loaded again.
REPLICAS 3;
CREATE TABLE readings (day UInt64, sensor UInt64, value Int64)
ENGINE = ReplicatedMergeTree PARTITION BY day ORDER BY sensor;

@r1 INSERT INTO readings FORMAT CSV
1,10,215
1,11,-40
2,10,220
;
@r2 INSERT INTO readings VALUES (1, 12, 9999);
-- The file once more: both of its days are known.
@r2 INSERT INTO readings FORMAT CSV
1,10,215
1,11,-40
2,10,220
;
@r1 SELECT day, count(), sum(value) FROM readings GROUP BY day SYNC;

-- A drop takes a number, as a block does, and drops the blocks of the day below it. The first replica doesn't know of
-- it yet, and answers over what it has.
@r3 ALTER TABLE readings DROP PARTITION 1;
@r1 SELECT day, count() FROM readings GROUP BY day;
-- The third replica never had the day, and doesn't fetch it any more. The second one had some of it.
@r3 SHOW PARTS FROM readings;
@r3 SYSTEM SYNC REPLICA readings;
@r3 SHOW PARTS FROM readings;
@r2 SHOW PARTS FROM readings;
@r2 SYSTEM SYNC REPLICA readings;
@r2 SHOW PARTS FROM readings;

-- The file a third time: the first day is forgotten and goes in again, the second one is known still.
@r2 INSERT INTO readings FORMAT CSV
1,10,215
1,11,-40
2,10,220
;
@r1 SELECT day, count(), sum(value) FROM readings GROUP BY day SYNC;

-- A drop takes parts away whatever became of them, and a mutation has nothing left to change there. Here the second day
-- is merged, is to be mutated, and is dropped.
@r1 INSERT INTO readings VALUES (2, 11, -35);
@r1 OPTIMIZE TABLE readings FINAL;
@r1 ALTER TABLE readings UPDATE value = 0 WHERE value < 0;
@r2 ALTER TABLE readings DROP PARTITION ID '2';
@r1 WAIT MUTATION readings 0;
@r1 SHOW PARTS FROM readings;
@r1 OPTIMIZE TABLE readings PARTITION 2 FINAL;
-- It has its numbers still: a drop of it takes one more, and so does a block.
@r1 ALTER TABLE readings DROP PARTITION 2;
@r1 INSERT INTO readings VALUES (2, 11, -35);
-- A day that never was: nothing is dropped, and no number is taken.
@r1 ALTER TABLE readings DROP PARTITION 9;
@r1 INSERT INTO readings VALUES (9, 10, 1);
@r3 SELECT * FROM readings SYNC;

-- Without a rule there is one partition.
CREATE TABLE notes (line String) ENGINE = ReplicatedMergeTree ORDER BY line;
@r1 ALTER TABLE notes DROP PARTITION tuple();
@r1 INSERT INTO notes VALUES ('a'), ('b');
@r2 ALTER TABLE notes DROP PARTITION tuple();
@r2 INSERT INTO notes VALUES ('a'), ('b');
@r3 ALTER TABLE notes DROP PARTITION ID 'all';
@r1 SELECT count() FROM notes SYNC;
