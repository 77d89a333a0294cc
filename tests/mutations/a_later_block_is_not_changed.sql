-- A command changes the block before it and not the one after it, first as the rows are read, then as a part.
CREATE TABLE t (k UInt64, c UInt64) ENGINE = ReplicatedMergeTree ORDER BY k;
INSERT INTO t VALUES (1,7);
ALTER TABLE t UPDATE c = c + 1 WHERE c >= 7;
INSERT INTO t VALUES (2,9);
SELECT c FROM t SYNC;
WAIT MUTATION t 0;
SHOW PARTS FROM t;
