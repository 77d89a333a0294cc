-- A dropped block is wanted by nobody. Its rows are inserted again while its source is down.
CREATE TABLE t (c UInt64) ENGINE = ReplicatedMergeTree ORDER BY c;
INSERT INTO t VALUES (1);
KILL r1;
@r2 INSERT INTO t VALUES (1);
@r2 ALTER TABLE t DROP PARTITION tuple();
@r2 SELECT count() FROM t SYNC;
@r2 INSERT INTO t VALUES (1);
RESTART r1;
SELECT c FROM t SYNC;
