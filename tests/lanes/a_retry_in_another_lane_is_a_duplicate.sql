-- A block that a lane inserted is known in that lane, in later ones at whatever replica, and after END.
CREATE TABLE t (c UInt64) ENGINE = ReplicatedMergeTree ORDER BY c;
LANES;
LANE;
INSERT INTO t VALUES (1);
INSERT INTO t VALUES (1);
LANE;
@r2 INSERT INTO t FORMAT CSV
1
;
@r2 INSERT INTO t VALUES (2);
END;
INSERT INTO t VALUES (2);
LANES;
LANE;
INSERT INTO t VALUES (3);
LANE;
INSERT INTO t VALUES (2);
END;
@r2 SELECT count(), sum(c) FROM t SYNC;
