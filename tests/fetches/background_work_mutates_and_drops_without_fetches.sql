-- r2 copies the log by seed 9, asks for the mutation of its part by seed 6, and does the last entry by seed 2.
CREATE TABLE t (k UInt64, c UInt64) ENGINE = ReplicatedMergeTree ORDER BY k;
INSERT INTO t VALUES (1,1);
@r2 SYSTEM SYNC REPLICA t;
@r2 SYSTEM STOP FETCHES t;
ALTER TABLE t UPDATE c = 2 WHERE k = 1;
RUN t 1 SEED 9;
RUN t 1 SEED 6;
RUN t 1 SEED 9;
RUN t 1 SEED 2;
@r2 SELECT * FROM t;
SHOW PARTS FROM t;
ALTER TABLE t DROP PARTITION tuple();
RUN t 1 SEED 9;
RUN t 1 SEED 2;
@r2 SHOW PARTS FROM t;
