-- After some turns a part is mutated at the second replica alone, and another one nowhere.
CREATE TABLE t (k UInt64, c UInt64) ENGINE = ReplicatedMergeTree ORDER BY k;
INSERT INTO t VALUES (1,1);
@r2 INSERT INTO t VALUES (2,1);
ALTER TABLE t UPDATE c = c + 10 WHERE c = 1;
INSERT INTO t VALUES (3,1);
@r2 INSERT INTO t VALUES (4,1);
RUN t 60 SEED 6;
SELECT * FROM t;
@r2 SELECT * FROM t;
@r2 SELECT * FROM t SYNC;
SELECT * FROM t SYNC;
SHOW PARTS FROM t;
@r2 SHOW PARTS FROM t;
