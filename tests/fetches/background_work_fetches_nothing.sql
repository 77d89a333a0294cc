-- By seed 9 r2 copies the log, and by seed 2 it does the only entry. With stopped fetches the entry stays to be done.
CREATE TABLE t (c UInt64) ENGINE = ReplicatedMergeTree ORDER BY c;
INSERT INTO t VALUES (1);
@r2 SYSTEM STOP FETCHES t;
RUN t 1 SEED 9;
RUN t 1 SEED 2;
@r2 SHOW PARTS FROM t;
RUN t 1 SEED 2;
@r2 SHOW PARTS FROM t;
@r2 SYSTEM START FETCHES t;
RUN t 1 SEED 2;
@r2 SHOW PARTS FROM t;
