-- Parts come in the order of partitions and numbers. The number of a block is none of its part's bytes.
CREATE TABLE p (k UInt64, c UInt64) ENGINE = ReplicatedMergeTree PARTITION BY k ORDER BY c SETTINGS replicated_deduplication_window = 0;
INSERT INTO p VALUES (10,5);
INSERT INTO p VALUES (2,5);
INSERT INTO p VALUES (10,5),(2,7);
CHECK TABLE p;
