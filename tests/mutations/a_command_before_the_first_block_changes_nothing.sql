-- A command before the first block has no number and changes nothing. An empty part is merged like any other.
CREATE TABLE t (k UInt64, c UInt64) ENGINE = ReplicatedMergeTree ORDER BY k;
ALTER TABLE t DELETE WHERE k >= 0;
WAIT MUTATION t 0;
INSERT INTO t VALUES (1,1);
WAIT MUTATION t 0;
SELECT * FROM t SYNC;
SHOW PARTS FROM t;
ALTER TABLE t DELETE WHERE NOT k = 7;
INSERT INTO t VALUES (2,2);
WAIT MUTATION t 1;
SHOW PARTS FROM t;
OPTIMIZE TABLE t FINAL;
SELECT * FROM t;
