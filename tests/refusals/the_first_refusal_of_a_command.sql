-- Names come before doubles, these before types, and these before the key.
CREATE TABLE t (k UInt64, u UInt64, v UInt64, i Int64, s String) ENGINE = ReplicatedMergeTree ORDER BY k;
ALTER TABLE t UPDATE u = k + 1 WHERE u = 1;
ALTER TABLE t UPDATE u = u + 1, i = i + 1 WHERE k = 1;
ALTER TABLE t DELETE WHERE i = -1;
ALTER TABLE t UPDATE u = x + 1, y = u, u = i WHERE z = 1;
ALTER TABLE t UPDATE u = u + 1, u = i + 1 WHERE z = 1;
ALTER TABLE t UPDATE u = s + 1, i = i + 1, i = i WHERE s = 1;
ALTER TABLE t UPDATE k = u + 1, u = i + 1 WHERE s = 1;
ALTER TABLE t UPDATE k = u + 1, s = s + 1 WHERE k = 1;
ALTER TABLE t UPDATE k = u + 1 WHERE s = 1;
ALTER TABLE t UPDATE u = -1 WHERE k = 1;
ALTER TABLE t DELETE WHERE k = 18446744073709551616;
ALTER TABLE t UPDATE u = u + 1, k = k + 1 WHERE k = 1;
