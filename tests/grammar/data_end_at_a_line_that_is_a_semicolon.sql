-- Data begin after the line's end, also one with a carriage return, and end at a line that is exactly a semicolon.
INSERT INTO t FORMAT CSV 
1,";
2
; 
;
SELECT * FROM t
