-- A replica may be down before there is a table, and all may be.
KILL r1;
KILL r2;
CREATE TABLE t (c UInt64) ENGINE = ReplicatedMergeTree ORDER BY c;
INSERT INTO t VALUES (1);
RUN t 20 SEED 1;
RESTART r2;
@r2 INSERT INTO t VALUES (1);
SELECT c FROM t;
RESTART r1;
SELECT c FROM t SYNC;
