-- By seed 11 r1 asks for a merge, which there isn't while one of the two parts is pending.
CREATE TABLE t (c UInt64) ENGINE = ReplicatedMergeTree ORDER BY c;
INSERT INTO t VALUES (1);
@r2 SYSTEM STOP FETCHES t;
INSERT INTO t SETTINGS insert_quorum = 2 VALUES (2);
RUN t 1 SEED 11;
@r1 SYSTEM SYNC REPLICA t;
@r1 SHOW PARTS FROM t;
@r2 SYSTEM START FETCHES t;
@r2 SYSTEM SYNC REPLICA t;
RUN t 1 SEED 11;
@r1 SHOW PARTS FROM t;
@r1 SYSTEM SYNC REPLICA t;
@r1 SHOW PARTS FROM t;
