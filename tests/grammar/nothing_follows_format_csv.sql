INSERT INTO t FORMAT CSV x
1
;
-- The rest of the line after CSV is white space.
