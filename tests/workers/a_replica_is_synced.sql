-- SYSTEM SYNC REPLICA: the replica has all that was accepted.
CREATE TABLE t (c UInt64, s String) ENGINE = ReplicatedMergeTree ORDER BY c;
INSERT INTO t VALUES (1, 'a');
@r2 SYSTEM SYNC REPLICA t;
@r2 SELECT c FROM t;
@r2 SYSTEM SYNC REPLICA u;
