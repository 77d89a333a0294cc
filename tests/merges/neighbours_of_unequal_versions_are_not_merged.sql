-- Neighbours of unequal versions aren't merged before both have the command. A DELETE of all leaves an empty part.
CREATE TABLE t (k UInt64, c UInt64) ENGINE = ReplicatedMergeTree ORDER BY k;
INSERT INTO t VALUES (1,7);
ALTER TABLE t UPDATE c = c + 1 WHERE c >= 7;
INSERT INTO t VALUES (2,9);
OPTIMIZE TABLE t FINAL;
WAIT MUTATION t 0;
OPTIMIZE TABLE t FINAL;
ALTER TABLE t DELETE WHERE k >= 0;
WAIT MUTATION t 1;
EXPLAIN SELECT count() FROM t;
