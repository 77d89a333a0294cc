-- The table, the replica, columns and types come before stopped fetches.
CREATE TABLE t (c UInt64) ENGINE = ReplicatedMergeTree ORDER BY c;
@r1 SYSTEM STOP FETCHES t;
SELECT c FROM u SYNC;
@r3 SYSTEM SYNC REPLICA t;
SELECT d FROM t SYNC;
SELECT c, count() FROM t SYNC;
OPTIMIZE TABLE t PARTITION 1 FINAL;
OPTIMIZE TABLE t PARTITION tuple() FINAL;
SELECT c FROM t SYNC;
SYSTEM SYNC REPLICA t;
