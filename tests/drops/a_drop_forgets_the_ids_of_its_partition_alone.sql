-- A drop forgets the ids of its own partition alone. In a window of two that leaves room for another one.
CREATE TABLE p (k UInt64) ENGINE = ReplicatedMergeTree PARTITION BY k ORDER BY k SETTINGS replicated_deduplication_window = 2;
INSERT INTO p VALUES (1),(2);
ALTER TABLE p DROP PARTITION 2;
INSERT INTO p VALUES (3);
INSERT INTO p VALUES (1);
INSERT INTO p VALUES (2);
INSERT INTO p VALUES (1);
SELECT k FROM p SYNC;
