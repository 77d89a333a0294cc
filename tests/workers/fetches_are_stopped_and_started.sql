-- SYSTEM STOP FETCHES and START FETCHES: what would bring the replica up to date is refused meanwhile.
CREATE TABLE t (c UInt64, s String) ENGINE = ReplicatedMergeTree ORDER BY c;
@r2 SYSTEM STOP FETCHES t;
INSERT INTO t VALUES (1, 'a');
@r2 SELECT c FROM t SYNC;
@r2 SYSTEM SYNC REPLICA t;
@r2 OPTIMIZE TABLE t FINAL;
@r2 SYSTEM START FETCHES t;
@r2 SELECT c FROM t SYNC;
