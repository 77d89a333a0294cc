-- Only the first of two is waited for. The second is still applied as rows are read, also at the other replica.
CREATE TABLE t (k UInt64, c UInt64) ENGINE = ReplicatedMergeTree ORDER BY k;
INSERT INTO t VALUES (1,1);
ALTER TABLE t UPDATE c = 5 WHERE k = 1;
ALTER TABLE t UPDATE c = c - 6 WHERE c = 5;
WAIT MUTATION t 0;
SHOW PARTS FROM t;
SELECT c FROM t;
WAIT MUTATION t 0;
@r2 SELECT c FROM t SYNC;
@r2 SHOW PARTS FROM t;
WAIT MUTATION t 1;
SHOW PARTS FROM t;
WAIT MUTATION t 0;
SELECT c FROM t;
@r2 SELECT c FROM t;
