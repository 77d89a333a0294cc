-- A pending part that is alone in its partition stays as it is. Beside another one its partition is refused.
CREATE TABLE p (k UInt64) ENGINE = ReplicatedMergeTree PARTITION BY intDiv(k, 10) ORDER BY k;
INSERT INTO p VALUES (1),(21);
INSERT INTO p VALUES (2),(22);
@r2 SYSTEM STOP FETCHES p;
INSERT INTO p SETTINGS insert_quorum = 2 VALUES (11);
OPTIMIZE TABLE p PARTITION 1 FINAL;
OPTIMIZE TABLE p PARTITION 0 FINAL;
INSERT INTO p VALUES (3),(12);
OPTIMIZE TABLE p FINAL;
@r1 SHOW PARTS FROM p;
OPTIMIZE TABLE p PARTITION 2 FINAL;
