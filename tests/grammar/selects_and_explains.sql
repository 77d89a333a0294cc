-- Each form is read to its end: the refusals are that there is no such table.
SELECT a FROM t SETTINGS select_sequential_consistency = 1; EXPLAIN indexes = 1 SELECT a FROM t; EXPLAIN SELECT * FROM t
