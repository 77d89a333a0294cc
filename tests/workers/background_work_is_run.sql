-- RUN: its reply tells the turns; what they come to isn't seen in a SELECT with SYNC.
REPLICAS 3;
CREATE TABLE t (c UInt64, s String) ENGINE = ReplicatedMergeTree ORDER BY c;
@r1 INSERT INTO t VALUES (0, 'x');
@r2 INSERT INTO t VALUES (1, 'x');
@r3 INSERT INTO t VALUES (2, 'x');
@r1 INSERT INTO t VALUES (3, 'x');
@r2 INSERT INTO t VALUES (4, 'x');
@r3 INSERT INTO t VALUES (5, 'x');
@r1 INSERT INTO t VALUES (6, 'x');
@r2 INSERT INTO t VALUES (7, 'x');
@r3 INSERT INTO t VALUES (8, 'x');
RUN t 40 SEED 3;
RUN t 0 SEED 0;
RUN t 1000001 SEED 3;
@r1 SELECT count(), sum(c) FROM t SYNC;
@r2 SELECT count(), sum(c) FROM t SYNC;
@r3 SELECT count(), sum(c) FROM t SYNC;
