-- Three replicas, of which some go down. A block is fetched from a replica that has it and is up; where there is none,
-- whoever wants it is told which replica took it.
REPLICAS 3;
CREATE TABLE orders (id UInt64, cents Int64) ENGINE = ReplicatedMergeTree ORDER BY id;
@r1 INSERT INTO orders VALUES (1, 500), (2, 750);
@r2 INSERT INTO orders VALUES (3, 120);
-- The first replica goes down before another one has fetched its block.
KILL r1;
@r2 SELECT * FROM orders SYNC;
@r3 SYSTEM SYNC REPLICA orders;
@r3 OPTIMIZE TABLE orders FINAL;
-- The log is done in its order. So the third replica didn't come to the second block, which it could have fetched.
@r3 SHOW PARTS FROM orders;
-- Without SYNC a replica answers over what it has.
@r2 SELECT * FROM orders;
-- INSERTs go on at the replicas that are up. What the first one took is known there.
@r2 INSERT INTO orders VALUES (4, 80);
@r3 INSERT INTO orders VALUES (1, 500), (2, 750);

-- A replica that is down takes no statement; one without a name is for the first replica.
@r1 SELECT * FROM orders;
INSERT INTO orders VALUES (5, 60);
ALTER TABLE orders DELETE WHERE cents < 0;
ALTER TABLE orders DROP PARTITION tuple();
SHOW PARTS FROM orders;
CHECK TABLE orders;
SYSTEM RESTART REPLICA orders;
-- Rows and columns are looked at before that, and the id of a mutation after it.
INSERT INTO orders VALUES (5, 60), (6, 'none');
SELECT total FROM orders;
WAIT MUTATION orders 7;
KILL r1;
KILL r4;

-- It comes up again with all that it had, and the others fetch its block.
RESTART r1;
RESTART r1;
@r1 SHOW PARTS FROM orders;
@r3 SELECT count(), sum(cents) FROM orders SYNC;
@r3 SHOW PARTS FROM orders;
-- The third replica has all blocks now, and needs no other one to merge them.
KILL r1;
KILL r2;
@r3 OPTIMIZE TABLE orders FINAL;
-- The second one hasn't, and needs the first one or the third one.
RESTART r2;
KILL r3;
@r2 SELECT count() FROM orders SYNC;
RESTART r3;
@r2 SELECT count() FROM orders SYNC;
-- It fetched the merged part, from another replica than the one that took the block.
@r2 SHOW PARTS FROM orders;

-- Parts are mutated where all blocks can be had.
@r2 INSERT INTO orders VALUES (5, 60);
@r2 ALTER TABLE orders UPDATE cents = cents + 1 WHERE id = 5;
KILL r2;
@r3 WAIT MUTATION orders 0;
@r3 WAIT MUTATION orders 1;
RESTART r2;
@r3 WAIT MUTATION orders 0;
@r3 SELECT * FROM orders;

-- A table that is made while a replica is down is there as well, and the replica is down in it too. Background events
-- pass it by.
CREATE TABLE notes (line String) ENGINE = ReplicatedMergeTree ORDER BY line;
@r1 SELECT * FROM notes;
@r2 INSERT INTO notes VALUES ('a');
RUN notes 100 SEED 1;
@r3 SHOW PARTS FROM notes;
RESTART r1;
@r1 SHOW PARTS FROM notes;
@r1 SELECT * FROM notes SYNC;
-- A block that was dropped is wanted by nobody.
@r1 INSERT INTO notes VALUES ('b');
KILL r1;
@r2 ALTER TABLE notes DROP PARTITION tuple();
@r2 SELECT count() FROM notes SYNC;
