-- Too few replicas that are up come before a part that is pending. Those that have fetches stopped count as up.
REPLICAS 3;
CREATE TABLE t (c UInt64) ENGINE = ReplicatedMergeTree ORDER BY c;
@r2 SYSTEM STOP FETCHES t;
@r3 SYSTEM STOP FETCHES t;
INSERT INTO t SETTINGS insert_quorum = 3 VALUES (1);
INSERT INTO t SETTINGS insert_quorum = 4 VALUES (2);
INSERT INTO t SETTINGS insert_quorum = 3 VALUES (2);
KILL r3;
INSERT INTO t SETTINGS insert_quorum = 3 VALUES (2);
INSERT INTO t SETTINGS insert_quorum = 2 VALUES (2);
INSERT INTO t SETTINGS insert_quorum = 3 VALUES (1);
RESTART r3;
INSERT INTO t SETTINGS insert_quorum = 3 VALUES (2);
