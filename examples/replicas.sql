-- Three replicas: each has at once what was inserted at it, and the rest once it is brought up to date.
REPLICAS 3;
CREATE TABLE t (c UInt64) ENGINE = ReplicatedMergeTree ORDER BY c;
@r1 INSERT INTO t VALUES (1), (2);
@r2 INSERT INTO t VALUES (3);
@r1 SELECT c FROM t;
@r2 SELECT c FROM t;
@r3 SELECT count() FROM t;
@r3 SELECT count(), sum(c) FROM t SYNC;
-- The third replica has all parts now, the first one still its own.
@r3 SELECT count() FROM t;
@r1 SELECT count() FROM t;
