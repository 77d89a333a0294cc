-- One block of a retry is known, and the other one isn't.
CREATE TABLE p (k UInt64, c Int64) ENGINE = ReplicatedMergeTree PARTITION BY intDiv(k, 10) ORDER BY c;
@r1 INSERT INTO p VALUES (11, 1), (5, -1);
@r2 INSERT INTO p VALUES (5, -1), (11, 2);
@r2 SELECT count() FROM p;
SELECT k, c FROM p SYNC;
EXPLAIN SELECT count() FROM p WHERE c > 0;
