-- The end of a session leaves the switch as it is, by KILL and RESTART and by SYSTEM RESTART REPLICA.
CREATE TABLE t (c UInt64) ENGINE = ReplicatedMergeTree ORDER BY c;
@r2 SYSTEM STOP FETCHES t;
KILL r2;
RESTART r2;
@r2 SYSTEM SYNC REPLICA t;
@r2 SYSTEM RESTART REPLICA t;
INSERT INTO t SETTINGS insert_quorum = 2 VALUES (1);
@r2 SYSTEM START FETCHES t;
KILL r2;
RESTART r2;
@r2 SYSTEM SYNC REPLICA t;
@r2 SELECT c FROM t SETTINGS select_sequential_consistency = 1;
