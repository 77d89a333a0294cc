-- INSERT with a quorum: at two of three replicas, at too few, and after one came back.
REPLICAS 3;
CREATE TABLE t (c UInt64, s String) ENGINE = ReplicatedMergeTree ORDER BY c;
INSERT INTO t SETTINGS insert_quorum = 2 VALUES (1, 'a');
@r3 INSERT INTO t SETTINGS insert_quorum = 3 VALUES (2, 'b');
KILL r2;
KILL r3;
INSERT INTO t SETTINGS insert_quorum = 2 VALUES (3, 'c');
RESTART r3;
INSERT INTO t SETTINGS insert_quorum = 2 VALUES (3, 'c');
SELECT count() FROM t SYNC;
@r3 SELECT c FROM t SYNC;
