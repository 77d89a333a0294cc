LANES; LANE; @r1 INSERT INTO t FORMAT CSV
1
;
SELECT a FROM t SYNC; LANE; END; SELECT a FROM t
-- Data end in a lane as elsewhere, a lane may be empty, and the script goes on after END.
