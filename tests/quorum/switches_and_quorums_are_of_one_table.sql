-- A switch is of one table, and so is a pending part.
CREATE TABLE t (c UInt64) ENGINE = ReplicatedMergeTree ORDER BY c;
CREATE TABLE u (c UInt64) ENGINE = ReplicatedMergeTree ORDER BY c;
@r2 SYSTEM STOP FETCHES t;
INSERT INTO t SETTINGS insert_quorum = 2 VALUES (1);
INSERT INTO u SETTINGS insert_quorum = 2 VALUES (1);
@r2 SYSTEM SYNC REPLICA u;
@r2 SYSTEM SYNC REPLICA t;
@r1 SELECT c FROM u SETTINGS select_sequential_consistency = 1;
@r1 SELECT c FROM t SETTINGS select_sequential_consistency = 1;
ALTER TABLE u DROP PARTITION tuple();
INSERT INTO t SETTINGS insert_quorum = 2 VALUES (2);
