-- Each item of a select list, and each kind of filter.
SELECT count, count(*), SUM(a), min(b), max(b) FROM t WHERE NOT (a = 1 OR b <> 'x') AND a >= -5 GROUP BY count SYNC
