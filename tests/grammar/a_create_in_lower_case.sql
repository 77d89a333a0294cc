-- Keywords of a CREATE in lower case, with the two texts of the engine.
create table t (k UInt64, v Int64, s String) engine = ReplicatedMergeTree('/p', 'r') partition by intDiv(k, 10) order by (k, v)
