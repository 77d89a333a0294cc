-- The same rows in another order are another block.
CREATE TABLE t (c UInt64) ENGINE = ReplicatedMergeTree ORDER BY c;
INSERT INTO t VALUES (1),(2);
INSERT INTO t VALUES (2),(1);
