-- Lanes are played in their order, and the replies of each come after its line.
CREATE TABLE t (c UInt64) ENGINE = ReplicatedMergeTree ORDER BY c;
LANES;
LANE;
INSERT INTO t VALUES (1);
INSERT INTO t VALUES (2);
LANE;
@r2 INSERT INTO t VALUES (3);
END;
SELECT count(), sum(c) FROM t SYNC;
