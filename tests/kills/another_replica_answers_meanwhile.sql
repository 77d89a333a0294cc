-- Another replica that has the rows answers meanwhile, and the one that was down has them still once it is up again.
CREATE TABLE t (c UInt64) ENGINE = ReplicatedMergeTree ORDER BY c;
INSERT INTO t VALUES (4);
@r2 SYSTEM SYNC REPLICA t;
KILL r1;
@r2 SELECT c FROM t SYNC;
SELECT c FROM t;
RESTART r1;
SELECT c FROM t;
