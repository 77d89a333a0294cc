-- A sequential SELECT leaves the pending part out, at the replica that took it too. Others read it.
REPLICAS 3;
CREATE TABLE t (c UInt64) ENGINE = ReplicatedMergeTree ORDER BY c;
INSERT INTO t VALUES (1);
@r2 SYSTEM STOP FETCHES t;
@r3 SYSTEM STOP FETCHES t;
INSERT INTO t SETTINGS insert_quorum = 2 VALUES (2);
SELECT c FROM t SETTINGS select_sequential_consistency = 1;
SELECT count(), sum(c) FROM t SETTINGS select_sequential_consistency = 1;
SELECT c FROM t WHERE c = 2 SETTINGS select_sequential_consistency = 1;
SELECT c FROM t SETTINGS select_sequential_consistency = 0;
SELECT c FROM t;
SELECT c FROM t SYNC;
@r2 SELECT c FROM t SETTINGS select_sequential_consistency = 1;
