-- Each right side of a set, and the three kinds of ALTER.
ALTER TABLE t UPDATE a = b + 1, b = 'x', c = a WHERE a != 0; ALTER TABLE t DELETE WHERE a < 1; ALTER TABLE t DROP PARTITION ID 'all'
