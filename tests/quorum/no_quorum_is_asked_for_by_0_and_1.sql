-- 0 and 1 ask for no quorum: not for replicas that are up, nor for a part that isn't pending, and nothing is noted.
CREATE TABLE t (c UInt64) ENGINE = ReplicatedMergeTree ORDER BY c;
KILL r2;
INSERT INTO t SETTINGS insert_quorum = 1 VALUES (1);
INSERT INTO t SETTINGS insert_quorum = 0 VALUES (2);
RESTART r2;
@r2 SELECT c FROM t SETTINGS select_sequential_consistency = 1;
@r2 SYSTEM STOP FETCHES t;
INSERT INTO t SETTINGS insert_quorum = 2 VALUES (3);
INSERT INTO t SETTINGS insert_quorum = 1 VALUES (4);
@r2 INSERT INTO t SETTINGS insert_quorum = 0 VALUES (5);
@r2 SHOW PARTS FROM t;
INSERT INTO t SETTINGS insert_quorum = 2 VALUES (6);
