-- Background work at three replicas: as many events as RUN says, each drawn from its seed. In an event one replica
-- copies the log, does an entry of its copy, asks for a merge or for the mutation of a part, or restarts.
REPLICAS 3;
CREATE TABLE stock (item UInt64, pieces Int64) ENGINE = ReplicatedMergeTree ORDER BY item;
@r1 INSERT INTO stock VALUES (1, 10), (2, 20);
@r2 INSERT INTO stock VALUES (3, 30);
@r3 INSERT INTO stock VALUES (4, 40);
-- The third replica fetches the blocks of the others, and asks for a merge, which nobody does yet. The second one would
-- merge too, but doesn't know the whole log.
RUN stock 12 SEED 7;
@r1 SHOW PARTS FROM stock;
@r2 SHOW PARTS FROM stock;
@r3 SHOW PARTS FROM stock;

@r1 ALTER TABLE stock UPDATE pieces = pieces + 1 WHERE item >= 2;
-- A replica that restarts keeps its parts, and looks at each entry of its log again.
@r2 SYSTEM RESTART REPLICA stock;
@r2 SHOW PARTS FROM stock;
-- The first replica asks that the merged part be mutated, which it hasn't, and fetches a block. The third one merges,
-- and mutates what it merged. So each answers over other parts.
RUN stock 24 SEED 11;
@r1 SELECT item, pieces FROM stock;
@r2 SELECT item, pieces FROM stock;
@r3 SELECT item, pieces FROM stock;
-- With SYNC the answer is the same at each, whatever was done where. The first replica fetches the one part then.
@r1 SELECT item, pieces FROM stock SYNC;
@r1 SHOW PARTS FROM stock;

-- After many events all have it, and nothing is left to do but to look again.
@r3 SYSTEM RESTART REPLICA stock;
RUN stock 300 SEED 1;
@r1 SHOW PARTS FROM stock;
@r2 SHOW PARTS FROM stock;
@r3 SHOW PARTS FROM stock;
@r2 SELECT item, pieces FROM stock;
