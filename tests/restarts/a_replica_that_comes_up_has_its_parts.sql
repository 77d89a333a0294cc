-- A replica that was down keeps its parts. What it did of the log it looks at again, and brings nothing back that is gone.
CREATE TABLE t (k UInt64, c UInt64) ENGINE = ReplicatedMergeTree ORDER BY k;
INSERT INTO t VALUES (1,1);
@r2 INSERT INTO t VALUES (2,2);
OPTIMIZE TABLE t FINAL;
ALTER TABLE t UPDATE c = c + 1 WHERE c > 0;
WAIT MUTATION t 0;
KILL r1;
RESTART r1;
SHOW PARTS FROM t;
SELECT * FROM t;
ALTER TABLE t DROP PARTITION tuple();
KILL r1;
RESTART r1;
SHOW PARTS FROM t;
SELECT * FROM t SYNC;
@r2 SHOW PARTS FROM t;
@r2 SELECT * FROM t SYNC;
