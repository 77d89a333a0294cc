-- Three replicas, of which the second one stops its fetches for a while. It takes INSERTs as before, and others fetch
-- from it; what would bring it up to date is refused until it fetches again.
REPLICAS 3;
CREATE TABLE visits (month UInt64, page String, n Int64)
ENGINE = ReplicatedMergeTree PARTITION BY month ORDER BY page;
@r1 INSERT INTO visits VALUES (1, '/home', 40), (1, '/shop', 12);
@r2 SYSTEM SYNC REPLICA visits;
@r2 SYSTEM STOP FETCHES visits;
@r1 INSERT INTO visits VALUES (1, '/home', 35), (2, '/shop', 9);
-- Without SYNC it answers over what it has.
@r2 SELECT page, sum(n) FROM visits GROUP BY page;
-- It would have to fetch two blocks for these.
@r2 SELECT page, sum(n) FROM visits GROUP BY page SYNC;
@r2 OPTIMIZE TABLE visits FINAL;
@r2 SYSTEM SYNC REPLICA visits;
-- Columns are looked at before that, and the id of a mutation after it.
@r2 SELECT total FROM visits SYNC;
@r2 WAIT MUTATION visits 0;
-- INSERTs go on there. What others took is known, and others fetch what it takes.
@r2 INSERT INTO visits VALUES (2, '/home', 28);
@r2 INSERT INTO visits VALUES (1, '/home', 40), (1, '/shop', 12);
@r3 SELECT month, sum(n) FROM visits GROUP BY month SYNC;
-- Background work merges the parts of each month where both are there, and brings the second replica nothing.
RUN visits 300 SEED 3;
@r1 SHOW PARTS FROM visits;
@r2 SHOW PARTS FROM visits;
@r3 SHOW PARTS FROM visits;

-- A drop takes away what is there, and what wasn't fetched yet.
@r2 ALTER TABLE visits DROP PARTITION 1;
@r2 SHOW PARTS FROM visits;
@r2 ALTER TABLE visits UPDATE n = n + 1 WHERE page = '/home';

-- The switch stays as it is while the replica is down, and at the end of its session.
KILL r2;
@r2 SYSTEM SYNC REPLICA visits;
@r2 SYSTEM START FETCHES visits;
RESTART r2;
@r2 SYSTEM SYNC REPLICA visits;
@r2 SYSTEM RESTART REPLICA visits;
@r2 SYSTEM SYNC REPLICA visits;
-- Other tables have switches of their own.
CREATE TABLE notes (line String) ENGINE = ReplicatedMergeTree ORDER BY line;
@r1 INSERT INTO notes VALUES ('a');
@r2 SELECT * FROM notes SYNC;
@r2 SYSTEM SYNC REPLICA visits;

-- It fetches again, and does what it missed.
@r2 SYSTEM START FETCHES visits;
@r2 SELECT * FROM visits SYNC;
@r2 WAIT MUTATION visits 0;
@r2 SELECT * FROM visits;
-- Where there is nothing to do the refusal is the same.
@r2 SYSTEM STOP FETCHES visits;
@r2 SELECT * FROM visits SYNC;
@r2 SYSTEM SYNC REPLICA visits;
