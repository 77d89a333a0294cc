-- What a replica that is down refuses changes nothing: no number is taken, and no id.
CREATE TABLE t (k UInt64, c UInt64) ENGINE = ReplicatedMergeTree ORDER BY k;
KILL r2;
@r2 INSERT INTO t VALUES (1,1);
@r2 ALTER TABLE t UPDATE c = 1 WHERE k = 1;
@r2 ALTER TABLE t DROP PARTITION tuple();
RESTART r2;
@r2 INSERT INTO t VALUES (1,1);
@r2 ALTER TABLE t UPDATE c = 2 WHERE k = 1;
@r2 SELECT * FROM t SYNC;
