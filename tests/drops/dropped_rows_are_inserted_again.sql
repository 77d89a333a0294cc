-- A drop takes a number. The rows that it took away are inserted again.
CREATE TABLE t (c UInt64) ENGINE = ReplicatedMergeTree ORDER BY c;
INSERT INTO t VALUES (1);
ALTER TABLE t DROP PARTITION tuple();
INSERT INTO t VALUES (1);
