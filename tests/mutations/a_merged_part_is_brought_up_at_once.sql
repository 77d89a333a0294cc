-- Two blocks for which the same two mutations are pending are merged, and then mutated by both at once.
CREATE TABLE t (a UInt64, c UInt64) ENGINE = ReplicatedMergeTree ORDER BY a;
INSERT INTO t VALUES (1, 0);
@r2 INSERT INTO t VALUES (2, 0);
ALTER TABLE t UPDATE c = c + 1 WHERE a < 9;
ALTER TABLE t UPDATE c = c + 2 WHERE a < 9;
OPTIMIZE TABLE t FINAL;
WAIT MUTATION t 1;
SHOW PARTS FROM t;
SELECT * FROM t;
