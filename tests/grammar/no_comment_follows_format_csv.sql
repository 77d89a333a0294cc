INSERT INTO t FORMAT CSV -- c
1
;
-- A comment isn't white space there.
