-- A replica that has noted the pending part counts for it also when it is down.
REPLICAS 4;
CREATE TABLE t (c UInt64) ENGINE = ReplicatedMergeTree ORDER BY c;
@r3 SYSTEM STOP FETCHES t;
@r4 SYSTEM STOP FETCHES t;
INSERT INTO t SETTINGS insert_quorum = 3 VALUES (1);
KILL r1;
@r3 SYSTEM START FETCHES t;
@r3 SYSTEM SYNC REPLICA t;
@r3 SELECT c FROM t SETTINGS select_sequential_consistency = 1;
@r4 SELECT c FROM t SETTINGS select_sequential_consistency = 1;
@r2 INSERT INTO t SETTINGS insert_quorum = 3 VALUES (2);
