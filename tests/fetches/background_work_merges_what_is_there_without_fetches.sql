-- By seed 9 r2 copies the log, and by seed 12 it merges the parts that it has, for which nothing is fetched.
CREATE TABLE t (c UInt64) ENGINE = ReplicatedMergeTree ORDER BY c;
INSERT INTO t VALUES (1);
INSERT INTO t VALUES (2);
@r2 SYSTEM SYNC REPLICA t;
@r2 SYSTEM STOP FETCHES t;
OPTIMIZE TABLE t FINAL;
@r2 SHOW PARTS FROM t;
RUN t 1 SEED 9;
RUN t 1 SEED 12;
@r2 SHOW PARTS FROM t;
