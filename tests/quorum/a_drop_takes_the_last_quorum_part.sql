-- A drop of its partition takes the last quorum part. A replica that hasn't done the drop reads what it has.
REPLICAS 3;
CREATE TABLE t (c UInt64) ENGINE = ReplicatedMergeTree ORDER BY c;
INSERT INTO t SETTINGS insert_quorum = 2 VALUES (1);
@r3 SELECT c FROM t SETTINGS select_sequential_consistency = 1;
ALTER TABLE t DROP PARTITION tuple();
@r3 SELECT c FROM t SETTINGS select_sequential_consistency = 1;
@r2 SELECT c FROM t SETTINGS select_sequential_consistency = 1;
@r1 SELECT c FROM t SETTINGS select_sequential_consistency = 1;
@r2 SYSTEM SYNC REPLICA t;
@r2 SELECT c FROM t SETTINGS select_sequential_consistency = 1;
