-- One replica is too few for a quorum. A sequential SELECT answers there as a plain one does.
REPLICAS 1;
CREATE TABLE t (c UInt64) ENGINE = ReplicatedMergeTree ORDER BY c;
INSERT INTO t SETTINGS insert_quorum = 2 VALUES (1);
INSERT INTO t SETTINGS insert_quorum = 1 VALUES (1);
INSERT INTO t SETTINGS insert_quorum = 2 VALUES (1);
SELECT c FROM t SETTINGS select_sequential_consistency = 1;
