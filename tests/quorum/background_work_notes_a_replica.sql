-- By seed 9 r2 copies the log, and by seed 12 it does the one entry, but not while its fetches are stopped.
CREATE TABLE t (c UInt64) ENGINE = ReplicatedMergeTree ORDER BY c;
@r2 SYSTEM STOP FETCHES t;
INSERT INTO t SETTINGS insert_quorum = 2 VALUES (1);
RUN t 1 SEED 9;
RUN t 1 SEED 12;
@r2 SHOW PARTS FROM t;
@r2 SYSTEM START FETCHES t;
INSERT INTO t SETTINGS insert_quorum = 2 VALUES (1);
RUN t 1 SEED 12;
@r2 SHOW PARTS FROM t;
INSERT INTO t SETTINGS insert_quorum = 2 VALUES (1);
@r2 SELECT c FROM t SETTINGS select_sequential_consistency = 1;
