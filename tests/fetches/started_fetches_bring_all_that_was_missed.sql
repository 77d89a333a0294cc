-- Once its fetches are started again a replica does all that it missed: blocks, merges, mutations and drops.
CREATE TABLE t (k UInt64, c UInt64) ENGINE = ReplicatedMergeTree PARTITION BY k ORDER BY c;
@r2 SYSTEM STOP FETCHES t;
INSERT INTO t VALUES (1,1),(2,1);
INSERT INTO t VALUES (1,2),(2,2);
OPTIMIZE TABLE t FINAL;
ALTER TABLE t DELETE WHERE c = 1;
WAIT MUTATION t 0;
ALTER TABLE t DROP PARTITION 2;
@r2 SELECT * FROM t;
@r2 SYSTEM SYNC REPLICA t;
@r2 SYSTEM START FETCHES t;
@r2 SYSTEM SYNC REPLICA t;
@r2 SELECT * FROM t;
