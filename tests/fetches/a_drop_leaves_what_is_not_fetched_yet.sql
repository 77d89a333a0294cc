-- A drop at a replica that fetches nothing is done there at once. What it leaves waits until the replica fetches again.
CREATE TABLE t (k UInt64, c UInt64) ENGINE = ReplicatedMergeTree PARTITION BY k ORDER BY c;
INSERT INTO t VALUES (1,10),(2,20);
@r2 SYSTEM STOP FETCHES t;
@r2 INSERT INTO t VALUES (1,11),(2,20);
@r2 SHOW PARTS FROM t;
@r2 ALTER TABLE t DROP PARTITION 1;
@r2 SHOW PARTS FROM t;
@r2 ALTER TABLE t DROP PARTITION 7;
@r2 INSERT INTO t VALUES (1,10);
@r2 SELECT * FROM t;
SELECT * FROM t SYNC;
@r2 SELECT * FROM t SYNC;
@r2 SYSTEM START FETCHES t;
@r2 SELECT * FROM t SYNC;
@r2 SHOW PARTS FROM t;
