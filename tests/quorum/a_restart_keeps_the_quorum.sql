-- A pending part is pending still when the replica that took it was down, and that one is noted still.
REPLICAS 3;
CREATE TABLE t (c UInt64) ENGINE = ReplicatedMergeTree ORDER BY c;
@r2 SYSTEM STOP FETCHES t;
@r3 SYSTEM STOP FETCHES t;
INSERT INTO t SETTINGS insert_quorum = 2 VALUES (1);
KILL r1;
@r2 SYSTEM START FETCHES t;
@r2 SYSTEM SYNC REPLICA t;
@r2 INSERT INTO t SETTINGS insert_quorum = 2 VALUES (2);
RESTART r1;
SELECT c FROM t SETTINGS select_sequential_consistency = 1;
SYSTEM RESTART REPLICA t;
INSERT INTO t SETTINGS insert_quorum = 2 VALUES (2);
@r2 SYSTEM SYNC REPLICA t;
INSERT INTO t SETTINGS insert_quorum = 2 VALUES (2);
SELECT c FROM t SETTINGS select_sequential_consistency = 1;
