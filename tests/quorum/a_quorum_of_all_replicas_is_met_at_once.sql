-- All three replicas note the block at once. It is known then, whatever quorum is asked for.
REPLICAS 3;
CREATE TABLE t (c UInt64) ENGINE = ReplicatedMergeTree ORDER BY c;
INSERT INTO t SETTINGS insert_quorum = 3 VALUES (1);
@r3 SELECT c FROM t SETTINGS select_sequential_consistency = 1;
INSERT INTO t SETTINGS insert_quorum = 2 VALUES (1);
