-- A part is mutated by each of two mutations, and a later one by the second alone; the first replica then does the same.
CREATE TABLE t (a UInt64, c UInt64) ENGINE = ReplicatedMergeTree ORDER BY a;
INSERT INTO t VALUES (1, 0);
ALTER TABLE t UPDATE c = c + 1 WHERE a < 9;
INSERT INTO t VALUES (2, 0);
ALTER TABLE t UPDATE c = c + 1 WHERE a < 9;
@r2 WAIT MUTATION t 0;
@r2 SHOW PARTS FROM t;
@r2 WAIT MUTATION t 1;
@r2 SHOW PARTS FROM t;
SHOW PARTS FROM t;
SYSTEM SYNC REPLICA t;
SHOW PARTS FROM t;
SELECT * FROM t;
