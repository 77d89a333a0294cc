-- A WAIT mutates nothing while a block is lost. An id that there isn't comes first.
CREATE TABLE t (k UInt64, c UInt64) ENGINE = ReplicatedMergeTree ORDER BY k;
@r2 INSERT INTO t VALUES (2,1);
INSERT INTO t VALUES (1,1);
ALTER TABLE t UPDATE c = 7 WHERE c = 1;
KILL r1;
@r2 WAIT MUTATION t 1;
@r2 WAIT MUTATION t 0;
@r2 SHOW PARTS FROM t;
RESTART r1;
@r2 WAIT MUTATION t 0;
@r2 SHOW PARTS FROM t;
