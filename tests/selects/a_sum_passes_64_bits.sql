-- A sum passes 64 bits; a name may stand apart from its `@`.
CREATE TABLE t (c UInt64) ENGINE = ReplicatedMergeTree ORDER BY c;
@r3 INSERT INTO t VALUES (1);
@r2 INSERT INTO t VALUES (18446744073709551615);
INSERT INTO t VALUES (18446744073709551616);
INSERT INTO t VALUES (0),(18446744073709551615);
@r1 SELECT count(), sum(c) FROM t SYNC;
@ r2 SELECT count(), sum(c) FROM t SYNC;
@ r2 SELECT count(), sum(c) FROM u SYNC
