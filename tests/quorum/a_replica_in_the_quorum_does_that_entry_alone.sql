-- A replica that meets a quorum does the entry of its block alone: a merge and a drop wait there.
CREATE TABLE t (k UInt64, c UInt64) ENGINE = ReplicatedMergeTree ORDER BY k;
INSERT INTO t VALUES (1,1);
INSERT INTO t VALUES (2,2);
@r2 SYSTEM SYNC REPLICA t;
OPTIMIZE TABLE t FINAL;
ALTER TABLE t DROP PARTITION tuple();
INSERT INTO t SETTINGS insert_quorum = 2 VALUES (3,3);
@r2 SHOW PARTS FROM t;
@r1 SHOW PARTS FROM t;
@r2 SELECT k FROM t SETTINGS select_sequential_consistency = 1;
@r2 SYSTEM SYNC REPLICA t;
@r2 SHOW PARTS FROM t;
