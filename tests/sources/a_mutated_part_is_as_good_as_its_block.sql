-- A mutated part is as good as its block: a later mutation is applied to it as the rows are read.
REPLICAS 3;
CREATE TABLE t (k UInt64, c UInt64) ENGINE = ReplicatedMergeTree ORDER BY k;
@r3 INSERT INTO t VALUES (1,1);
ALTER TABLE t UPDATE c = c + 1 WHERE k = 1;
WAIT MUTATION t 0;
KILL r3;
ALTER TABLE t UPDATE c = c + 5 WHERE c = 2;
@r2 SELECT c FROM t SYNC;
@r2 SHOW PARTS FROM t;
