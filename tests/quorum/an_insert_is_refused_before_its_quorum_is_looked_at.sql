-- What an INSERT says and its replica come before how many are up, that before the pending part, then what is known.
REPLICAS 3;
CREATE TABLE t (k UInt64, c UInt64) ENGINE = ReplicatedMergeTree ORDER BY k;
@r2 SYSTEM STOP FETCHES t;
@r3 SYSTEM STOP FETCHES t;
INSERT INTO t SETTINGS insert_quorum = 2 VALUES (1,1);
@r9 INSERT INTO u (c, d, c) SETTINGS insert_quorum = 4294967296 VALUES ('a');
@r9 INSERT INTO t (c, d, c) SETTINGS insert_quorum = 4294967296 VALUES ('a');
@r3 INSERT INTO t (c, d, c) SETTINGS insert_quorum = 4294967296 VALUES ('a');
@r3 INSERT INTO t (c, c) SETTINGS insert_quorum = 4294967296 VALUES ('a');
@r3 INSERT INTO t SETTINGS insert_quorum = 4294967296 VALUES ('a',2);
@r3 INSERT INTO t SETTINGS insert_quorum = 4 VALUES (2,2),('a',2);
KILL r3;
@r3 INSERT INTO t SETTINGS insert_quorum = 4 VALUES (2,2),('a',2);
@r3 INSERT INTO t SETTINGS insert_quorum = 4 VALUES (1,1);
INSERT INTO t SETTINGS insert_quorum = 3 VALUES (1,1);
INSERT INTO t SETTINGS insert_quorum = 2 VALUES (1,1);
@r3 INSERT INTO t SETTINGS insert_quorum = 2 VALUES (1,1);
INSERT INTO t VALUES (1,1);
