-- Without rows there is nothing to be pending or met. The setting and the replica are looked at nevertheless.
CREATE TABLE t (c UInt64) ENGINE = ReplicatedMergeTree ORDER BY c;
INSERT INTO t SETTINGS insert_quorum = 9 FORMAT CSV
;
@r2 SYSTEM STOP FETCHES t;
INSERT INTO t SETTINGS insert_quorum = 2 VALUES (1);
INSERT INTO t SETTINGS insert_quorum = 2 FORMAT CSV
;
INSERT INTO t SETTINGS insert_quorum = 4294967296 FORMAT CSV
;
INSERT INTO t SETTINGS insert_quorum = 2 FORMAT CSV
2
;
KILL r1;
INSERT INTO t SETTINGS insert_quorum = 9 FORMAT CSV
;
