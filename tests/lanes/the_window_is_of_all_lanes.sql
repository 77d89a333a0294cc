-- The blocks of all lanes count in the window: of two the first is let go when the third comes.
CREATE TABLE t (c UInt64) ENGINE = ReplicatedMergeTree ORDER BY c SETTINGS replicated_deduplication_window = 2;
LANES;
LANE;
INSERT INTO t VALUES (1);
INSERT INTO t VALUES (2);
LANE;
@r2 INSERT INTO t VALUES (1);
@r2 INSERT INTO t VALUES (3);
LANE;
INSERT INTO t VALUES (1);
INSERT INTO t VALUES (3);
END;
SELECT count(), sum(c) FROM t SYNC;
