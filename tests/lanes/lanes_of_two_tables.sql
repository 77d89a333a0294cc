-- Statements of one lane may be of several tables, and those of several lanes of one.
CREATE TABLE t (c UInt64) ENGINE = ReplicatedMergeTree ORDER BY c;
CREATE TABLE u (c UInt64, s String) ENGINE = ReplicatedMergeTree ORDER BY c;
LANES;
LANE;
INSERT INTO t VALUES (1);
INSERT INTO u VALUES (1,'a');
ALTER TABLE u UPDATE s = 'z' WHERE c = 1;
LANE;
@r2 INSERT INTO u VALUES (2,'b');
@r2 ALTER TABLE t DROP PARTITION tuple();
@r2 SELECT * FROM u SYNC;
END;
SELECT count() FROM t SYNC;
