-- The replicas that are up ask for a merge, which none of them can do before the block of the third one can be had.
REPLICAS 3;
CREATE TABLE t (c UInt64) ENGINE = ReplicatedMergeTree ORDER BY c;
INSERT INTO t VALUES (1);
@r2 INSERT INTO t VALUES (2);
@r3 INSERT INTO t VALUES (3);
KILL r3;
RUN t 200 SEED 5;
SHOW PARTS FROM t;
@r2 SHOW PARTS FROM t;
RESTART r3;
@r3 SHOW PARTS FROM t;
RUN t 200 SEED 5;
SHOW PARTS FROM t;
@r2 SHOW PARTS FROM t;
@r3 SELECT c FROM t SYNC;
