-- Of the three replicas that are needed two have noted the part; the one that fetches nothing hasn't.
REPLICAS 3;
CREATE TABLE t (c UInt64) ENGINE = ReplicatedMergeTree ORDER BY c;
@r2 SYSTEM STOP FETCHES t;
INSERT INTO t SETTINGS insert_quorum = 3 VALUES (1);
@r3 SHOW PARTS FROM t;
@r2 SHOW PARTS FROM t;
@r3 SYSTEM SYNC REPLICA t;
INSERT INTO t SETTINGS insert_quorum = 2 VALUES (2);
@r3 SELECT c FROM t SETTINGS select_sequential_consistency = 1;
@r2 SYSTEM START FETCHES t;
@r2 SYSTEM SYNC REPLICA t;
@r3 SELECT c FROM t SETTINGS select_sequential_consistency = 1;
INSERT INTO t SETTINGS insert_quorum = 2 VALUES (2);
