-- A mutation takes the next number in each partition that there is, which the mutated parts show.
CREATE TABLE t (a UInt64, c UInt64) ENGINE = ReplicatedMergeTree PARTITION BY intDiv(a, 10) ORDER BY a;
ALTER TABLE t DELETE WHERE c = 9;
INSERT INTO t VALUES (81, 0);
INSERT INTO t VALUES (51, 0);
@r2 INSERT INTO t VALUES (82, 0);
ALTER TABLE t DELETE WHERE c = 9;
INSERT INTO t VALUES (52, 0);
INSERT INTO t VALUES (61, 0);
ALTER TABLE t DELETE WHERE c = 9;
WAIT MUTATION t 1;
SHOW PARTS FROM t;
WAIT MUTATION t 2;
SHOW PARTS FROM t;
