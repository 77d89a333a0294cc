-- SELECT with select_sequential_consistency reads what is in a quorum.
CREATE TABLE t (c UInt64, s String) ENGINE = ReplicatedMergeTree ORDER BY c;
INSERT INTO t SETTINGS insert_quorum = 2 VALUES (1, 'a');
SELECT c FROM t SETTINGS select_sequential_consistency = 1;
SELECT c FROM t SETTINGS select_sequential_consistency = 2;
