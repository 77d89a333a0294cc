-- A restart of its session in one table is a statement that is sent to the replica, and doesn't bring it up.
CREATE TABLE t (c UInt64) ENGINE = ReplicatedMergeTree ORDER BY c;
KILL r2;
@r2 SYSTEM RESTART REPLICA t;
@r2 SHOW PARTS FROM t;
RESTART r2;
@r2 SYSTEM RESTART REPLICA t;
@r2 SHOW PARTS FROM t;
