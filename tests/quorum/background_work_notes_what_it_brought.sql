-- By seed 36 r2 does an entry when it has the pending part already, and so isn't noted.
REPLICAS 3;
CREATE TABLE t (c UInt64) ENGINE = ReplicatedMergeTree ORDER BY c;
@r2 SYSTEM STOP FETCHES t;
@r3 SYSTEM STOP FETCHES t;
INSERT INTO t SETTINGS insert_quorum = 2 VALUES (1);
@r3 INSERT INTO t VALUES (2);
KILL r3;
@r2 SYSTEM START FETCHES t;
@r2 SYSTEM SYNC REPLICA t;
RESTART r3;
RUN t 1 SEED 36;
@r2 SHOW PARTS FROM t;
INSERT INTO t SETTINGS insert_quorum = 2 VALUES (1);
@r2 SYSTEM SYNC REPLICA t;
INSERT INTO t SETTINGS insert_quorum = 2 VALUES (1);
