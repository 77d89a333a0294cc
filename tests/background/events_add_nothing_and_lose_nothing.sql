-- Background events add nothing to one block, and lose it at neither replica.
CREATE TABLE t (c UInt64) ENGINE = ReplicatedMergeTree ORDER BY c;
INSERT INTO t VALUES (1);
RUN t 50 SEED 3;
@r2 SELECT c FROM t SYNC;
