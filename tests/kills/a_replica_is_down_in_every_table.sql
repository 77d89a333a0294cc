-- A replica is down in every table, and in one that is made meanwhile.
CREATE TABLE t (c UInt64) ENGINE = ReplicatedMergeTree ORDER BY c;
INSERT INTO t VALUES (1);
KILL r2;
CREATE TABLE u (c UInt64) ENGINE = ReplicatedMergeTree ORDER BY c;
@r2 SELECT c FROM t;
@r2 SELECT c FROM u;
INSERT INTO u VALUES (2);
RESTART r2;
@r2 SELECT c FROM t SYNC;
@r2 SELECT c FROM u SYNC;
@r2 SHOW PARTS FROM u;
