-- Too few replicas that are up come before the answer that a block is known.
REPLICAS 3;
CREATE TABLE t (c UInt64) ENGINE = ReplicatedMergeTree ORDER BY c;
INSERT INTO t SETTINGS insert_quorum = 3 VALUES (1);
KILL r3;
INSERT INTO t SETTINGS insert_quorum = 3 VALUES (1);
INSERT INTO t SETTINGS insert_quorum = 2 VALUES (1);
RESTART r3;
INSERT INTO t SETTINGS insert_quorum = 3 VALUES (1);
