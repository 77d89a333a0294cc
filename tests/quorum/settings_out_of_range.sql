-- A quorum below 2^32 is asked for however many replicas there are. A sequential SELECT is asked for by 0 or 1.
CREATE TABLE t (c UInt64) ENGINE = ReplicatedMergeTree ORDER BY c;
INSERT INTO t SETTINGS insert_quorum = 4294967295 VALUES (1);
INSERT INTO t SETTINGS insert_quorum = 4294967296 VALUES (1);
INSERT INTO t SETTINGS insert_quorum = 340282366920938463463374607431768211455 VALUES (1);
INSERT INTO t SETTINGS insert_quorum = 002 VALUES (1);
SELECT c FROM t SETTINGS select_sequential_consistency = 0;
SELECT c FROM t SETTINGS select_sequential_consistency = 01;
SELECT c FROM t SETTINGS select_sequential_consistency = 2;
SELECT c FROM t SETTINGS select_sequential_consistency = 4294967296;
SELECT c FROM t SETTINGS select_sequential_consistency = 340282366920938463463374607431768211455;
