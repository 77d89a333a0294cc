-- What comes before the lost block in the log is done and stays done, and what comes after it isn't.
REPLICAS 3;
CREATE TABLE t (c UInt64) ENGINE = ReplicatedMergeTree ORDER BY c;
@r2 INSERT INTO t VALUES (1);
INSERT INTO t VALUES (2);
@r2 INSERT INTO t VALUES (3);
KILL r1;
@r3 SYSTEM SYNC REPLICA t;
@r3 SELECT c FROM t;
@r2 SHOW PARTS FROM t;
RESTART r1;
@r3 SELECT c FROM t SYNC;
