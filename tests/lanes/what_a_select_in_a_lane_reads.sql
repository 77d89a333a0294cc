-- A SELECT reads what its replica has; one with SYNC brings it up to date, and what it brought is there after END.
CREATE TABLE t (c UInt64) ENGINE = ReplicatedMergeTree ORDER BY c;
LANES;
LANE;
INSERT INTO t VALUES (1);
@r2 SELECT count() FROM t;
LANE;
@r2 INSERT INTO t VALUES (2);
@r2 SELECT c FROM t;
@r2 SELECT c FROM t SYNC;
LANE;
@r2 SELECT c FROM t WHERE c < 2;
SELECT c FROM t;
END;
@r2 SHOW PARTS FROM t;
SHOW PARTS FROM t;
