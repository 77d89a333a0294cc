-- Of a sequential SELECT the table comes first and then the replica, before all that the query says and its setting.
CREATE TABLE t (c UInt64) ENGINE = ReplicatedMergeTree ORDER BY c;
@r9 SELECT d FROM u SETTINGS select_sequential_consistency = 2;
@r9 SELECT d FROM t SETTINGS select_sequential_consistency = 2;
@r2 SELECT d FROM t SETTINGS select_sequential_consistency = 2;
@r2 SELECT c FROM t GROUP BY d SETTINGS select_sequential_consistency = 2;
@r2 SELECT c FROM t WHERE c = -1 SETTINGS select_sequential_consistency = 2;
@r2 SELECT c FROM t WHERE c = 1 GROUP BY c SETTINGS select_sequential_consistency = 2;
@r2 SELECT c FROM t WHERE c = 1 GROUP BY c SETTINGS select_sequential_consistency = 1;
