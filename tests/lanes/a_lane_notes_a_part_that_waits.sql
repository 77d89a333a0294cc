-- A SELECT with SYNC in a lane brings its replica a part that waits, and its quorum is met then.
REPLICAS 3;
CREATE TABLE t (c UInt64) ENGINE = ReplicatedMergeTree ORDER BY c;
@r2 SYSTEM STOP FETCHES t;
@r3 SYSTEM STOP FETCHES t;
INSERT INTO t SETTINGS insert_quorum = 2 VALUES (1);
@r2 SYSTEM START FETCHES t;
LANES;
LANE;
@r3 INSERT INTO t VALUES (2);
@r3 SELECT c FROM t SYNC;
LANE;
@r2 SELECT c FROM t SYNC;
@r3 INSERT INTO t VALUES (1);
END;
INSERT INTO t SETTINGS insert_quorum = 2 VALUES (1);
@r2 SELECT c FROM t SETTINGS select_sequential_consistency = 1;
@r3 SELECT c FROM t SETTINGS select_sequential_consistency = 1;
