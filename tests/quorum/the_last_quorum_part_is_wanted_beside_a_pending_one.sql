-- While a part is pending the one before it is still the last one whose quorum was met.
REPLICAS 3;
CREATE TABLE t (c UInt64) ENGINE = ReplicatedMergeTree ORDER BY c;
INSERT INTO t SETTINGS insert_quorum = 2 VALUES (1);
@r2 SYSTEM STOP FETCHES t;
@r3 SYSTEM STOP FETCHES t;
INSERT INTO t SETTINGS insert_quorum = 2 VALUES (2);
@r1 SELECT c FROM t SETTINGS select_sequential_consistency = 1;
@r2 SELECT c FROM t SETTINGS select_sequential_consistency = 1;
@r3 SELECT c FROM t SETTINGS select_sequential_consistency = 1;
@r3 SYSTEM START FETCHES t;
@r3 SYSTEM SYNC REPLICA t;
@r3 SELECT c FROM t SETTINGS select_sequential_consistency = 1;
@r2 SELECT c FROM t SETTINGS select_sequential_consistency = 1;
