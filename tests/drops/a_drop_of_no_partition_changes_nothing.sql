-- A drop of a partition that there isn't changes nothing.
CREATE TABLE p (k UInt64) ENGINE = ReplicatedMergeTree PARTITION BY k ORDER BY k;
INSERT INTO p VALUES (3),(1),(2);
ALTER TABLE p DROP PARTITION 9;
