-- Keywords in any case, everything else exact; words and numbers need no white space between them.
create table T(c UInt64)engine=ReplicatedMergeTree order by c;INSERT into T values(1)(2),( 3 );select COUNT(),Sum(c)from T sync
