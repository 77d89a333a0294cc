-- Blocks come in the order of partitions, each numbered from 0; a second INSERT goes on in each.
CREATE TABLE p (k UInt64) ENGINE = ReplicatedMergeTree PARTITION BY k ORDER BY k;
INSERT INTO p VALUES (3),(1),(2);
INSERT INTO p VALUES (2),(2),(10);
SELECT k FROM p;
