-- Refusals one after the other, among them that of a replica which has fetches stopped.
CREATE TABLE t (c UInt64) ENGINE = ReplicatedMergeTree ORDER BY c;
@r9 SELECT c FROM t;
SELECT c FROM u;
SELECT d FROM t;
SELECT c, count() FROM t;
INSERT INTO t VALUES (1),(2,3);
KILL r2;
KILL r2;
RESTART r2;
RESTART r2;
@r2 SYSTEM STOP FETCHES t;
@r2 SYSTEM SYNC REPLICA t;
WAIT MUTATION t 0;
CREATE TABLE u (a UInt64, a UInt64) ENGINE = ReplicatedMergeTree ORDER BY a;
CREATE TABLE t (c UInt64) ENGINE = ReplicatedMergeTree ORDER BY c;
