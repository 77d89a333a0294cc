-- A replica that is down is told before its switch, which can't be set then and stands when it is up again.
CREATE TABLE t (c UInt64) ENGINE = ReplicatedMergeTree ORDER BY c;
@r2 SYSTEM STOP FETCHES t;
KILL r2;
@r2 SYSTEM SYNC REPLICA t;
@r2 SELECT c FROM t SYNC;
@r2 SYSTEM START FETCHES t;
RESTART r2;
@r2 SYSTEM SYNC REPLICA t;
@r2 SYSTEM START FETCHES t;
@r2 SYSTEM SYNC REPLICA t;
KILL r2;
@r2 SYSTEM STOP FETCHES t;
RESTART r2;
@r2 SYSTEM SYNC REPLICA t;
