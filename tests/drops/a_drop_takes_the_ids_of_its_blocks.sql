-- A drop of nothing has no number. A drop of all forgets the blocks: one of them is inserted again, and is known from then on.
CREATE TABLE t (a UInt64) ENGINE = ReplicatedMergeTree ORDER BY a;
ALTER TABLE t DROP PARTITION tuple();
INSERT INTO t VALUES (1);
@r2 INSERT INTO t VALUES (2);
ALTER TABLE t DROP PARTITION tuple();
@r2 INSERT INTO t VALUES (1);
INSERT INTO t VALUES (1);
