-- Mutations are counted over all lanes, and each changes the blocks that came before it, those of other lanes too.
CREATE TABLE t (k UInt64, c UInt64) ENGINE = ReplicatedMergeTree ORDER BY k;
LANES;
LANE;
INSERT INTO t VALUES (1,10);
ALTER TABLE t UPDATE c = c + 1 WHERE k >= 1;
INSERT INTO t VALUES (2,20);
LANE;
@r2 ALTER TABLE t UPDATE c = c + 100 WHERE k >= 1;
@r2 INSERT INTO t VALUES (3,30);
LANE;
@r2 ALTER TABLE t DELETE WHERE k = 2;
@r2 INSERT INTO t VALUES (2,21);
@r2 SELECT * FROM t SYNC;
@r2 SELECT * FROM t;
END;
WAIT MUTATION t 2;
SELECT * FROM t;
