-- Two commands, the second over what the first made; a SELECT without SYNC has neither of them.
CREATE TABLE t (k UInt64, c UInt64) ENGINE = ReplicatedMergeTree ORDER BY k;
INSERT INTO t VALUES (1,1);
ALTER TABLE t UPDATE c = 5 WHERE k = 1;
ALTER TABLE t UPDATE c = c - 6 WHERE c = 5;
SELECT c FROM t;
SELECT c FROM t SYNC;
WAIT MUTATION t 1;
SHOW PARTS FROM t;
