-- Keywords are read in any case, and settings as they are. SETTINGS stands where a list of columns ends.
CREATE TABLE t (k UInt64, c UInt64) ENGINE = ReplicatedMergeTree ORDER BY k;
insert into t (c, k)settings insert_quorum=2values(1,2)(3,4);
@r2 Select k From t Where c > 1 Settings -- here
select_sequential_consistency = 1;
select count() from t group by c SETTINGS select_sequential_consistency=1;
INSERT INTO TABLE t Settings insert_quorum = 2 Format CSV
5,6
;
@r2 System Stop Fetches t;
@r2 system sync replica t;
@r2 system start FETCHES t;
@r2 system sync replica t;
