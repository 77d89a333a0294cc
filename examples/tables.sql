-- Why a table isn't made: the first reason counts. A name that no column has comes before one that stands twice.
CREATE TABLE t (a UInt64, b UInt64, b UInt64, a UInt64) ENGINE = ReplicatedMergeTree ORDER BY (a, x, y);
CREATE TABLE t (a UInt64, b UInt64, b UInt64, a UInt64) ENGINE = ReplicatedMergeTree ORDER BY (b, b);
CREATE TABLE t (c UInt64, a UInt64, b UInt64, b UInt64) ENGINE = ReplicatedMergeTree ORDER BY (a, a);
CREATE TABLE t (a UInt64, b UInt64, c UInt64) ENGINE = ReplicatedMergeTree ORDER BY (c, b, b, c) SETTINGS index_granularity = 0;
CREATE TABLE t (a UInt64) ENGINE = ReplicatedMergeTree ORDER BY a SETTINGS index_granularity = 65537;
-- 65 columns are one too many; 64 are not, nor is a key of as many.
CREATE TABLE t (c0 UInt64, c1 UInt64, c2 UInt64, c3 UInt64, c4 UInt64, c5 UInt64, c6 UInt64, c7 UInt64, c8 UInt64, c9 UInt64, c10 UInt64, c11 UInt64, c12 UInt64, c13 UInt64, c14 UInt64, c15 UInt64, c16 UInt64, c17 UInt64, c18 UInt64, c19 UInt64, c20 UInt64, c21 UInt64, c22 UInt64, c23 UInt64, c24 UInt64, c25 UInt64, c26 UInt64, c27 UInt64, c28 UInt64, c29 UInt64, c30 UInt64, c31 UInt64, c32 UInt64, c33 UInt64, c34 UInt64, c35 UInt64, c36 UInt64, c37 UInt64, c38 UInt64, c39 UInt64, c40 UInt64, c41 UInt64, c42 UInt64, c43 UInt64, c44 UInt64, c45 UInt64, c46 UInt64, c47 UInt64, c48 UInt64, c49 UInt64, c50 UInt64, c51 UInt64, c52 UInt64, c53 UInt64, c54 UInt64, c55 UInt64, c56 UInt64, c57 UInt64, c58 UInt64, c59 UInt64, c60 UInt64, c61 UInt64, c62 UInt64, c63 UInt64, c64 UInt64) ENGINE = ReplicatedMergeTree ORDER BY c0 SETTINGS index_granularity = 0;
CREATE TABLE t (c0 UInt64, c1 UInt64, c2 UInt64, c3 UInt64, c4 UInt64, c5 UInt64, c6 UInt64, c7 UInt64, c8 UInt64, c9 UInt64, c10 UInt64, c11 UInt64, c12 UInt64, c13 UInt64, c14 UInt64, c15 UInt64, c16 UInt64, c17 UInt64, c18 UInt64, c19 UInt64, c20 UInt64, c21 UInt64, c22 UInt64, c23 UInt64, c24 UInt64, c25 UInt64, c26 UInt64, c27 UInt64, c28 UInt64, c29 UInt64, c30 UInt64, c31 UInt64, c32 UInt64, c33 UInt64, c34 UInt64, c35 UInt64, c36 UInt64, c37 UInt64, c38 UInt64, c39 UInt64, c40 UInt64, c41 UInt64, c42 UInt64, c43 UInt64, c44 UInt64, c45 UInt64, c46 UInt64, c47 UInt64, c48 UInt64, c49 UInt64, c50 UInt64, c51 UInt64, c52 UInt64, c53 UInt64, c54 UInt64, c55 UInt64, c56 UInt64, c57 UInt64, c58 UInt64, c59 UInt64, c60 UInt64, c61 UInt64, c62 UInt64, c63 UInt64, c64 UInt64) ENGINE = ReplicatedMergeTree ORDER BY c0;
CREATE TABLE t (c0 UInt64, c1 UInt64, c2 UInt64, c3 UInt64, c4 UInt64, c5 UInt64, c6 UInt64, c7 UInt64, c8 UInt64, c9 UInt64, c10 UInt64, c11 UInt64, c12 UInt64, c13 UInt64, c14 UInt64, c15 UInt64, c16 UInt64, c17 UInt64, c18 UInt64, c19 UInt64, c20 UInt64, c21 UInt64, c22 UInt64, c23 UInt64, c24 UInt64, c25 UInt64, c26 UInt64, c27 UInt64, c28 UInt64, c29 UInt64, c30 UInt64, c31 UInt64, c32 UInt64, c33 UInt64, c34 UInt64, c35 UInt64, c36 UInt64, c37 UInt64, c38 UInt64, c39 UInt64, c40 UInt64, c41 UInt64, c42 UInt64, c43 UInt64, c44 UInt64, c45 UInt64, c46 UInt64, c47 UInt64, c48 UInt64, c49 UInt64, c50 UInt64, c51 UInt64, c52 UInt64, c53 UInt64, c54 UInt64, c55 UInt64, c56 UInt64, c57 UInt64, c58 UInt64, c59 UInt64, c60 UInt64, c61 UInt64, c62 UInt64, c63 UInt64) ENGINE = ReplicatedMergeTree ORDER BY (c0, c1, c2, c3, c4, c5, c6, c7, c8, c9, c10, c11, c12, c13, c14, c15, c16, c17, c18, c19, c20, c21, c22, c23, c24, c25, c26, c27, c28, c29, c30, c31, c32, c33, c34, c35, c36, c37, c38, c39, c40, c41, c42, c43, c44, c45, c46, c47, c48, c49, c50, c51, c52, c53, c54, c55, c56, c57, c58, c59, c60, c61, c62, c63) SETTINGS index_granularity = 65536;
CREATE TABLE t () ENGINE = ReplicatedMergeTree ORDER BY tuple();
-- The column of PARTITION BY comes before the key. It must be of UInt64, and the divisor 1 to 18446744073709551615; then
-- come the settings, the granularity first, in whatever order they stand.
CREATE TABLE u (day UInt64, page String) ENGINE = ReplicatedMergeTree PARTITION BY month ORDER BY user;
CREATE TABLE u (day UInt64, page String) ENGINE = ReplicatedMergeTree PARTITION BY page ORDER BY (day, user);
CREATE TABLE u (day UInt64, page String, page UInt64) ENGINE = ReplicatedMergeTree PARTITION BY page ORDER BY (day, day);
CREATE TABLE u (day UInt64, page String) ENGINE = ReplicatedMergeTree PARTITION BY page ORDER BY (day, day);
CREATE TABLE u (day UInt64, page String) ENGINE = ReplicatedMergeTree PARTITION BY page ORDER BY day SETTINGS index_granularity = 0;
CREATE TABLE u (day Int64) ENGINE = ReplicatedMergeTree PARTITION BY intDiv(day, 100) ORDER BY day;
CREATE TABLE u (day UInt64) ENGINE = ReplicatedMergeTree PARTITION BY intDiv(day, 0) ORDER BY day;
CREATE TABLE u (day UInt64) ENGINE = ReplicatedMergeTree PARTITION BY intDiv(day, 18446744073709551616) ORDER BY day;
CREATE TABLE u (day UInt64) ENGINE = ReplicatedMergeTree ORDER BY day SETTINGS replicated_deduplication_window = 100001, index_granularity = 0;
CREATE TABLE u (day UInt64) ENGINE = ReplicatedMergeTree ORDER BY day SETTINGS replicated_deduplication_window = 100001;
CREATE TABLE u (day UInt64) ENGINE = ReplicatedMergeTree ORDER BY day SETTINGS replicated_deduplication_window = 340282366920938463463374607431768211455;
CREATE TABLE u (day UInt64, page String) ENGINE = ReplicatedMergeTree PARTITION BY intDiv(day, 18446744073709551615) ORDER BY page SETTINGS replicated_deduplication_window = 100000;
-- `tuple()` is no rule; without parentheses it is a column of that name, as `intDiv` is.
CREATE TABLE v (day UInt64) ENGINE = ReplicatedMergeTree PARTITION BY tuple ORDER BY day;
CREATE TABLE v (day UInt64) ENGINE = ReplicatedMergeTree PARTITION BY tuple() ORDER BY day;
CREATE TABLE w (tuple UInt64, intDiv UInt64) ENGINE = ReplicatedMergeTree PARTITION BY intDiv ORDER BY tuple;
-- A fifth table is one too many, where nothing else is wrong with it.
CREATE TABLE x (day UInt64) ENGINE = ReplicatedMergeTree PARTITION BY intDiv(day, 0) ORDER BY day;
CREATE TABLE x (day UInt64) ENGINE = ReplicatedMergeTree PARTITION BY day ORDER BY day;
