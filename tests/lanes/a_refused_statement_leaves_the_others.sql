-- A refused statement changes nothing. Its lane goes on, and so do the others.
CREATE TABLE t (k UInt64, c UInt64) ENGINE = ReplicatedMergeTree ORDER BY k;
LANES;
LANE;
INSERT INTO t VALUES (1,1);
INSERT INTO u VALUES (1,1);
INSERT INTO t VALUES (2,2);
LANE;
@r3 SELECT c FROM t SYNC;
LANE;
@r2 INSERT INTO t VALUES (3,3), (4,-1);
@r2 SELECT d FROM t;
@r2 SELECT k, c FROM t SYNC;
END;
SELECT count() FROM t SYNC;
