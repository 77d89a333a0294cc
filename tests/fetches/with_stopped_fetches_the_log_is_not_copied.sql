-- What is refused for stopped fetches copies no log: by seed 12 r2 copies it, and the second time it does the merge.
CREATE TABLE t (c UInt64) ENGINE = ReplicatedMergeTree ORDER BY c;
INSERT INTO t VALUES (1);
INSERT INTO t VALUES (2);
@r2 SYSTEM SYNC REPLICA t;
@r2 SYSTEM STOP FETCHES t;
OPTIMIZE TABLE t FINAL;
@r2 SYSTEM SYNC REPLICA t;
@r2 SELECT c FROM t SYNC;
@r2 OPTIMIZE TABLE t FINAL;
@r2 WAIT MUTATION t 0;
RUN t 1 SEED 12;
@r2 SHOW PARTS FROM t;
RUN t 1 SEED 12;
@r2 SHOW PARTS FROM t;
