-- Blocks before the one whose quorum isn't met have their lines, and those after it aren't tried.
CREATE TABLE p (k UInt64) ENGINE = ReplicatedMergeTree PARTITION BY k ORDER BY k;
INSERT INTO p VALUES (1);
@r2 SYSTEM STOP FETCHES p;
INSERT INTO p SETTINGS insert_quorum = 2 VALUES (3),(1),(2);
@r1 SHOW PARTS FROM p;
INSERT INTO p SETTINGS insert_quorum = 2 VALUES (1);
INSERT INTO p SETTINGS insert_quorum = 2 VALUES (3),(4);
INSERT INTO p VALUES (2),(3);
