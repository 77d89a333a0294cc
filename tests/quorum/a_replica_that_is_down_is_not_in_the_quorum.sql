-- A replica that is down isn't asked, and has no part of the quorum when it is up again.
REPLICAS 3;
CREATE TABLE t (c UInt64) ENGINE = ReplicatedMergeTree ORDER BY c;
KILL r2;
INSERT INTO t SETTINGS insert_quorum = 2 VALUES (1);
INSERT INTO t SETTINGS insert_quorum = 3 VALUES (2);
@r3 SHOW PARTS FROM t;
RESTART r2;
@r2 SHOW PARTS FROM t;
@r2 SELECT c FROM t SETTINGS select_sequential_consistency = 1;
@r2 SYSTEM SYNC REPLICA t;
@r2 SELECT c FROM t SETTINGS select_sequential_consistency = 1;
