-- A pending part is mutated like any other one, and what covers it is pending then, and meets the quorum.
CREATE TABLE t (k UInt64, c UInt64) ENGINE = ReplicatedMergeTree ORDER BY k;
@r2 SYSTEM STOP FETCHES t;
INSERT INTO t SETTINGS insert_quorum = 2 VALUES (1,1);
ALTER TABLE t UPDATE c = 5 WHERE k = 1;
INSERT INTO t VALUES (2,2);
WAIT MUTATION t 0;
@r1 SHOW PARTS FROM t;
OPTIMIZE TABLE t FINAL;
SELECT c FROM t SETTINGS select_sequential_consistency = 1;
INSERT INTO t SETTINGS insert_quorum = 2 VALUES (3,3);
@r2 SYSTEM START FETCHES t;
@r2 SYSTEM SYNC REPLICA t;
@r2 SELECT c FROM t SETTINGS select_sequential_consistency = 1;
OPTIMIZE TABLE t FINAL;
