-- KILL and RESTART: what a replica refuses while it is down, and what it has then.
CREATE TABLE t (c UInt64, s String) ENGINE = ReplicatedMergeTree ORDER BY c;
INSERT INTO t VALUES (1, 'a');
@r2 SYSTEM SYNC REPLICA t;
KILL r2;
@r2 SELECT c FROM t SYNC;
@r2 INSERT INTO t VALUES (2, 'b');
INSERT INTO t VALUES (3, 'c');
KILL r2;
RESTART r2;
@r2 SELECT c FROM t SYNC;
@r2 INSERT INTO t VALUES (3, 'c');
