-- Of a quorum insert the columns come first, then the setting, the rows, the replica, and how many replicas are up.
CREATE TABLE t (c UInt64) ENGINE = ReplicatedMergeTree ORDER BY c;
INSERT INTO t (d) SETTINGS insert_quorum = 4294967296 VALUES ('a');
INSERT INTO t (c, c) SETTINGS insert_quorum = 4294967296 VALUES ('a',1);
INSERT INTO t SETTINGS insert_quorum = 4294967296 VALUES ('a');
INSERT INTO t SETTINGS insert_quorum = 3 VALUES (1),('a');
INSERT INTO t SETTINGS insert_quorum = 3 VALUES (1);
KILL r1;
INSERT INTO t SETTINGS insert_quorum = 3 VALUES (1);
@r2 INSERT INTO t SETTINGS insert_quorum = 2 VALUES (1);
@r2 INSERT INTO t SETTINGS insert_quorum = 1 VALUES (1);
