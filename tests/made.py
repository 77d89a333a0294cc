"""Scripts that are too long to lie beside the others: each is made here, with what it has to write. Nothing of this
comes from the program: the replies follow the description in docs/scripts.md, and rows are sorted and changed here."""
import hashlib
import itertools
import os
from collections import namedtuple
from contextlib import contextmanager

# a call of the program: a name that says what it shows, the script, what is written, the exit code, and the words
Case = namedtuple("Case", "name script output code words", defaults=(("play",),))

LONGEST = 67_108_864


def case(name, script, output):
    """A script and its replies, both as pieces of text. Its code is 2 where one of them is a refusal."""
    script, output = "".join(script), "".join(output)
    code = 2 if any(line.startswith("refused ") for line in output.split("\n")) else 0
    return Case(name, script.encode(), output.encode(), code)


def table(rule="", columns="c UInt64", settings=""):
    return f"CREATE TABLE t ({columns}) ENGINE = ReplicatedMergeTree {rule} ORDER BY {columns.split()[0]} {settings};\n"


# ---- calls


def calls():
    """Words without a form, and the longest script."""
    first = b"CREATE TABLE t (c UInt64) ENGINE = ReplicatedMergeTree ORDER BY c"
    for words in [
        [],
        ["fly"],
        ["play", "--workers"],
        ["play", "--workers", "0"],
        ["play", "--workers", "9"],
        ["play", "--workers", "x"],
        ["play", "--workers", "+1"],
        ["play", "--workers", "-1"],
        ["play", "--workers", "00000000001"],
        ["play", "--workers", ""],
        ["play", "--workers=0"],
        ["play", "--workers="],
        ["play", "--workers=12"],
        ["play", "--workers", "1", "--workers", "2"],
        ["play", "--workers=1", "--workers=1"],
        ["--workers", "1", "play"],
        ["play", "-w", "1"],
        ["storm"],
        ["storm", "1"],
        ["storm", "1", "0"],
        ["storm", "1", "20001"],
        ["storm", "2147483648", "1"],
        ["storm", "-1", "1"],
        ["storm", "1", "+1"],
        ["storm", "1", "00000000001"],
        ["storm", "1", ""],
        ["storm", "1", "2", "3"],
        ["storm", "1", "2", "--workers"],
        ["storm", "1", "2", "--workers", "0"],
        ["storm", "1", "2", "--workers", "9"],
        ["storm", "1", "2", "--workers=9"],
        ["storm", "--workers", "1", "1", "2", "--workers=1"],
        ["storm", "--workers=1", "1", "2", "--workers=1"],
        ["--workers", "1", "storm", "1", "2"],
        ["storm", "--", "1", "2"],
        ["play", "play"],
        ["--help"],
        ["play", "--"],
        ["play", ""],
        ["Play"],
        ["help"],
        [""],
    ]:
        yield Case(f"the words {words} have no form", first, b"", 3, words)
    summary = b"statements 2\naccepted 1\nduplicate 1\nrefused 0\nr1 4,29899\nr2 4,29899\nr3 4,29899\n"
    for workers in [[], ["--workers", "1"], ["--workers", "4"], ["--workers=8"]]:
        for at in range(3):
            numbers = ["1", "2"]
            words = ["storm", *numbers[:at], *workers, *numbers[at:]]
            yield Case(f"the words {words} play two turns from the seed 1", b"KILL r1", summary, 0, words)
    yield Case("the longest script is played", b" " * LONGEST, b"", 0)
    yield Case("a script of one byte more is not", b" " * (LONGEST + 1), b"", 7)


@contextmanager
def folder_as_file():
    """A folder as a source: each read of it fails."""
    folder = os.open("/", os.O_RDONLY)
    try:
        yield folder
    finally:
        os.close(folder)


# ---- the grammar's limits


def grammar():
    """How many comparisons, open NOTs and parentheses, letters, digits and lanes there may be."""
    unknown_table, filtered = "refused 2 UnknownTable t\n", "SELECT a FROM t WHERE "
    for name, prefix, piece, count, back, output in [
        ("256 comparisons", filtered, "a=1 AND ", 255, "a=1", unknown_table),
        ("257 comparisons of AND", filtered, "a=1 AND ", 256, "a=1", fault(22 + 8 * 256)),
        ("257 comparisons of OR", filtered, "a=1 OR ", 256, "NOT (a=1)", fault(22 + 7 * 256 + 5)),
        ("64 open NOTs", filtered, "NOT ", 64, "a=1", unknown_table),
        ("65 open NOTs", filtered, "NOT ", 65, "a=1", fault(22 + 4 * 64)),
        ("65 open parentheses", filtered, "(", 65, "a=1", fault(22 + 64)),
        ("a word of 255 letters", "KILL ", "a", 255, "", f"refused 4 UnknownReplica {'a' * 255}\n"),
        ("a word of 256 letters", "KILL ", "a", 256, "", fault(5)),
        ("a number of 39 digits", "WAIT MUTATION t ", "0", 39, "", unknown_table),
        ("a number of 40 digits", "WAIT MUTATION t ", "0", 40, "", fault(16)),
        ("a number past 2^128", "WAIT MUTATION t 3", "4", 38, "", fault(16)),
        # Past the ninth LANE reading goes on with END.
        ("eight lanes", "LANES;", "LANE;", 8, "END", "".join(f"lane {i}\n" for i in range(1, 9)) + "end\n"),
        ("nine lanes", "LANES;", "LANE;", 9, "END", fault(46) + fault(51)),
    ]:
        yield case(name, [prefix, piece * count, back], [output])


def fault(offset):
    return f"refused 1 Syntax {offset}\n"


# ---- many statements in lanes


def lanes():
    yield blocks_of_eight_lanes()
    yield mutations_of_eight_lanes()


def blocks_of_eight_lanes():
    """Each lane is at a replica of its own. It inserts the last block of the lane before it once more, and 50 new ones,
    and counts there what there is by then."""
    script, output = ["REPLICAS 8;\n", table(), "LANES;\n"], ["ok\nok\n"]
    for lane in range(8):
        first, end, at = 50 * lane, 50 * lane + 50, f"@r{lane + 1}"
        script += [f"LANE; {at} INSERT INTO t VALUES ({first - 1});\n" if lane else "LANE;\n"]
        script += (f"{at} INSERT INTO t VALUES ({i});\n" for i in range(first, end))
        script += [f"{at} SELECT count(), sum(c) FROM t SYNC;\n"]
        output += [f"lane {lane + 1}\n", f"duplicate all_{first - 1}_{first - 1}_0\n" if lane else ""]
        output += (f"part all_{i}_{i}_0\n" for i in range(first, end))
        output += [f"rows 1\n{end},{sum(range(end))}\n"]
    script += ["END; @r1 SELECT count() FROM t; @r1 SELECT max(c) FROM t SYNC;\n"]
    output += ["end\nparts ", " ".join(f"all_{i}_{i}_0" for i in range(50)), "\nrows 1\n50\nrows 1\n399\n"]
    return case("400 blocks in eight lanes", script, output)


def mutations_of_eight_lanes():
    """Of 1,032 mutations the last eight pass the limit: each is refused by itself, and the last lane goes on."""
    lane = ["LANE;\n", *["ALTER TABLE t DELETE WHERE c = 1;\n"] * 129]
    script = [table(), "LANES;\n", *lane * 8, "INSERT INTO t VALUES (1); END; SELECT count() FROM t SYNC;\n"]
    output = ["ok\n"]
    for id in range(1032):
        output += [f"lane {id // 129 + 1}\n"] if id % 129 == 0 else []
        output += [f"mutation {id:010}\n" if id < 1024 else "refused 18 LimitReached mutations 1024\n"]
    return case("1,032 mutations in eight lanes", script, [*output, "part all_0_0_0\nend\nrows 1\n1\n"])


# ---- the limits of a table


def limits():
    yield mutations()
    yield partitions()
    yield client_entries()
    yield worker_entries()
    yield values_and_numbers()


def mutations():
    """All 1,024 mutations are applied as rows are read, and then to the part. Past them blocks are still inserted."""
    script = [table(columns="k UInt64, c UInt64"), "INSERT INTO t VALUES (1,1);\n"]
    script += ["ALTER TABLE t UPDATE c = c + 1 WHERE k = 1;\n"] * 1025
    script += ["SELECT c FROM t SYNC; WAIT MUTATION t 1023; SHOW PARTS FROM t; WAIT MUTATION t 1024;\n"]
    script += ["INSERT INTO t VALUES (2,1); @r2 SELECT c FROM t SYNC; @r2 SHOW PARTS FROM t;\n"]
    output = ["ok\npart all_0_0_0\n", *(f"mutation {id:010}\n" for id in range(1024))]
    output += ["refused 18 LimitReached mutations 1024\nrows 1\n1025\n"]
    output += ["done 0000001023\nparts all_0_0_0_1024\nrefused 17 UnknownMutation 1024\n"]
    output += ["part all_1025_1025_0\nrows 2\n1\n1025\nparts all_0_0_0_1024 all_1025_1025_0\n"]
    return case("1,024 mutations", script, output)


def partitions():
    """The blocks before the refused one stay. A mutation takes a number in each partition, and a drop makes no room."""
    script = [table("PARTITION BY k", "k UInt64"), "INSERT INTO t VALUES ", *(f"({k})" for k in range(1025)), ";\n"]
    script += ["ALTER TABLE t DELETE WHERE k < 3;\n"]
    script += ["ALTER TABLE t DROP PARTITION 1024; ALTER TABLE t DROP PARTITION 1023;\n"]
    script += ["INSERT INTO t VALUES (1024); INSERT INTO t VALUES (1023),(5); SELECT count() FROM t SYNC;\n"]
    output = ["ok\n", *(f"part {k}_0_0_0\n" for k in range(1024)), "refused 18 LimitReached partitions 1024\n"]
    output += ["mutation 0000000000\ndropped 1024 below 0\ndropped 1023 below 2\n"]
    output += ["refused 18 LimitReached partitions 1024\npart 5_2_2_0\npart 1023_3_3_0\nrows 1\n1022\n"]
    return case("1,024 partitions", script, output)


def client_entries():
    """Where there is no room for an entry of a client, a known block is still a duplicate; a new one, a mutation and a
    drop are refused. Merges go on."""
    script = [table(settings="SETTINGS replicated_deduplication_window = 1")]
    script += (f"INSERT INTO t VALUES ({i % 2});\n" for i in range(32768))
    script += ["INSERT INTO t VALUES (1); @r2 INSERT INTO t VALUES (2); ALTER TABLE t DELETE WHERE c = 1;\n"]
    script += ["ALTER TABLE t DROP PARTITION tuple(); OPTIMIZE TABLE t FINAL; SELECT count(), sum(c) FROM t SYNC;\n"]
    refused = "refused 18 LimitReached client_entries 32768\n"
    output = ["ok\n", *(f"part all_{i}_{i}_0\n" for i in range(32768)), "duplicate all_32767_32767_0\n", refused * 3]
    output += ["optimized all_0_32767_1\nrows 1\n32768,16384\n"]
    return case("32,768 entries of clients", script, output)


def worker_entries():
    """33 parts are brought up to one mutation after the other. In the middle of the 993rd there is no room for an entry
    of a worker: a WAIT and an OPTIMIZE are refused, and blocks are still inserted."""
    waits, parts = 32768 // 33, 33
    script = [table(columns="k UInt64, c UInt64", settings="SETTINGS replicated_deduplication_window = 0")]
    script += (f"INSERT INTO t VALUES ({i},0);\n" for i in range(parts))
    script += ["ALTER TABLE t UPDATE c = c + 1 WHERE k < 100;\n"] * 1024
    script += (f"WAIT MUTATION t {id};\n" for id in range(waits + 1))
    script += ["SHOW PARTS FROM t; WAIT MUTATION t 0; WAIT MUTATION t 1023; INSERT INTO t VALUES (100,0);\n"]
    script += ["SELECT count(), sum(c) FROM t; SELECT count(), sum(c) FROM t SYNC;\n"]
    refused = "refused 18 LimitReached worker_entries 32768\n"
    # The mutation of an id took the number 33 + id. Of the last WAIT there was room for all parts but one.
    names = [f"all_{i}_{i}_0_{parts + waits - (i == parts - 1)}" for i in range(parts)]
    output = ["ok\n", *(f"part all_{i}_{i}_0\n" for i in range(parts))]
    output += (f"mutation {id:010}\n" for id in range(1024))
    output += (f"done {id:010}\n" for id in range(waits))
    output += [refused, "parts ", " ".join(names), "\ndone 0000000000\n", refused, "part all_1057_1057_0\n"]
    output += ["parts ", " ".join(names), " all_1057_1057_0\nrows 1\n", f"34,{parts * (waits + 1) - 1}\n"]
    output += ["rows 1\n", f"34,{parts * 1024}\n"]
    return case("32,768 entries of workers", script, output)


def values_and_numbers():
    """Of 64 columns one is given, so that each row has 64 values. A block whose values would pass the limit is refused
    and uses its number up; one that reaches it is accepted. By refused blocks the numbers of a partition are used up:
    then nothing gets one there, and other partitions give theirs."""
    width, limit, numbers = 64, 8_388_608, 65_536
    rows = limit // width - 1
    columns = ", ".join(f"c{i} UInt64" for i in range(width))
    script = [table("PARTITION BY intDiv(c0, 10000000)", columns), "INSERT INTO t (c0) FORMAT CSV\n"]
    script += (f"{row % 10}\n" for row in range(rows))
    script += [";\nINSERT INTO t (c0) VALUES (1),(2); INSERT INTO t (c0) VALUES (3);\n"]
    script += ["INSERT INTO t (c0) VALUES (4);\n"] * (numbers - 3)
    script += ["INSERT INTO t (c0) VALUES (4); INSERT INTO t (c0) VALUES (3); ALTER TABLE t DELETE WHERE c0 = 4;\n"]
    script += ["ALTER TABLE t DROP PARTITION 0; INSERT INTO t (c0) VALUES (10000000);\n"]
    script += ["ALTER TABLE t DROP PARTITION 1; SELECT count() FROM t SYNC; SHOW PARTS FROM t;\n"]
    no_number, no_value = f"refused 18 LimitReached numbers {numbers}\n", f"refused 18 LimitReached values {limit}\n"
    output = [f"ok\npart 0_0_0_0\nrefused 18 LimitReached values {width * rows}\npart 0_2_2_0\n"]
    output += [no_value * (numbers - 3), no_number, "duplicate 0_2_2_0\n", no_number, no_number, no_value]
    output += [f"dropped 1 below 1\nrows 1\n{rows + 1}\nparts 0_0_0_0 0_2_2_0\n"]
    return case("8,388,608 values and 65,536 numbers", script, output)


# ---- quorums at a limit


def quorums():
    """How many replicas are up, a pending part, and that a block is known come before a limit, where a table has all
    its partitions. A block that the limit refuses is pending nowhere."""
    quorum = "INSERT INTO t SETTINGS insert_quorum ="
    script = [table("PARTITION BY k", "k UInt64"), "INSERT INTO t VALUES ", *(f"({k})" for k in range(1024)), ";\n"]
    script += [f"{quorum} 3 VALUES (1024); {quorum} 2 VALUES (1024),(1023); @r2 SYSTEM STOP FETCHES t;\n"]
    script += [f"{quorum} 2 VALUES (5),(1024); {quorum} 2 VALUES (1024); INSERT INTO t VALUES (1024);\n"]
    script += ["@r2 SYSTEM START FETCHES t; @r2 SYSTEM SYNC REPLICA t;\n"]
    script += [f"{quorum} 2 VALUES (1024); {quorum} 2 VALUES (6); SELECT count() FROM t SYNC;\n"]
    full = "refused 18 LimitReached partitions 1024\n"
    output = ["ok\n", *(f"part {k}_0_0_0\n" for k in range(1024))]
    output += ["refused 12 TooFewLive 2 3\nduplicate 1023_0_0_0\n", full, "ok\n"]
    output += ["refused 15 QuorumUnmet 1 2\nrefused 13 QuorumPending 5_1_1_0\n", full, "ok\nok\n"]
    output += [full, "part 6_1_1_0\nrows 1\n1026\n"]
    yield case("quorums in 1,024 partitions", script, output)


# ---- what a small script may cost


def costs():
    """Scripts of less than 1 MB, each of which would take minutes or gigabytes if what is settled, or named once more,
    were looked at again. They are played within 10 seconds and 1 GB."""
    yield settled_mutations()
    yield one_part_each()
    yield one_name_many_times()
    yield millions_of_turns()
    yield mutations_of_many_copies()


def settled_mutations():
    """20,000 rows in 1,000 partitions, and 200 mutations that match nothing: each SELECT is as quick as without them."""
    rows, partitions, mutations, reads = 20_000, 1_000, 200, 20
    script = [table("PARTITION BY p", "k UInt64, p UInt64"), "INSERT INTO t FORMAT CSV\n"]
    script += (f"{k},{k % partitions}\n" for k in range(rows))
    script += [";\n", *["ALTER TABLE t DELETE WHERE k > 99999;\n"] * mutations]
    script += ["SELECT count(), sum(k) FROM t SYNC;\nWAIT MUTATION t 199;\n"]
    script += ["SELECT count(), sum(k) FROM t SYNC; SELECT count() FROM t WHERE k >= 10 SYNC;\n"] * (reads // 2)
    output = ["ok\n", *(f"part {p}_0_0_0\n" for p in range(partitions))]
    output += (f"mutation {id:010}\n" for id in range(mutations))
    total = f"rows 1\n{rows},{sum(range(rows))}\n"
    output += [total, f"done {mutations - 1:010}\n", *[total, f"rows 1\n{rows - 10}\n"] * (reads // 2)]
    return case("200 settled mutations in 1,000 partitions", script, output)


def one_part_each():
    """1,000 partitions of one part each are optimized 500 times: nothing is merged."""
    names = [f"{p}_0_0_0" for p in range(1_000)]
    script = [table("PARTITION BY k", "k UInt64"), "INSERT INTO t VALUES ", *(f"({p})" for p in range(1_000)), ";\n"]
    script += ["OPTIMIZE TABLE t FINAL;\n"] * 500
    output = ["ok\n", *(f"part {name}\n" for name in names), *["".join(f"optimized {n}\n" for n in names)] * 500]
    return case("1,000 partitions of one part", script, output)


def one_name_many_times():
    """A column that stands 100,000 times in GROUP BY is compared once; one that stands 10,000 times among the items is
    printed as often."""
    script = [table(), "INSERT INTO t VALUES ", *(f"({c % 500})" for c in range(50_000)), ";\n"]
    script += ["SELECT count() FROM t GROUP BY ", ",".join("c" * 100_000), " SYNC;\n"]
    script += ["SELECT ", ",".join("c" * 10_000), " FROM t WHERE c < 2 GROUP BY c SYNC;\n"]
    output = ["ok\npart all_0_0_0\nrows 500\n", "100\n" * 500]
    output += ["rows 2\n", *(",".join([str(c)] * 10_000) + "\n" for c in range(2))]
    return case("one name many times", script, output)


def millions_of_turns():
    """1,000,000 turns, five times over: what is stored of a turn is small."""
    script = [table(), "INSERT INTO t VALUES (1); INSERT INTO t VALUES (2);\n"]
    script += (f"RUN t 1000000 SEED {seed};\n" for seed in range(5))
    script += ["SELECT count(), sum(c) FROM t SYNC;\n"]
    output = ["ok\npart all_0_0_0\npart all_1_1_0\n", *["ran 1000000\n"] * 5, "rows 1\n2,3\n"]
    return case("5,000,000 turns", script, output)


def mutations_of_many_copies():
    """1,024 mutations in each of four tables, copied by eight replicas: they are listed once for all."""
    script, output = ["REPLICAS 8;\n"], ["ok\n"]
    for name in "tuvw":
        script += [table(columns="k UInt64, c UInt64").replace(" t ", f" {name} "), f"INSERT INTO {name} VALUES (1,1);\n"]
        script += [f"ALTER TABLE {name} UPDATE c = c + 1 WHERE k = 1;\n"] * 1024
        script += [f"@r{r} SELECT c FROM {name} SYNC;\n" for r in range(1, 9)]
        output += ["ok\npart all_0_0_0\n", *(f"mutation {id:010}\n" for id in range(1024)), "rows 1\n1025\n" * 8]
    return case("4,096 mutations copied by eight replicas", script, output)


# ---- rows that look random


def merges():
    """Three blocks of 3,501 rows are merged, and put through an UPDATE and a DELETE. What the part should have then is
    worked out by a stable sort and a walk over all rows; its digest shows the order of rows with equal keys."""
    rows = [*random_rows(1, 2000), *random_rows(2, 1500), *random_rows(3, 1)]
    blocks = [rows[:2000], rows[2000:3500], rows[3500:]]
    script = [table(columns="k UInt64, u UInt64, v UInt64", settings="SETTINGS index_granularity = 8")]
    for block in blocks:
        script += ["INSERT INTO t FORMAT CSV\n", *records(block), ";\n"]
    script += ["OPTIMIZE TABLE t FINAL; SELECT * FROM t; CHECK TABLE t;\n"]
    script += ["ALTER TABLE t UPDATE u = v + 3, v = u WHERE k < 50; ALTER TABLE t DELETE WHERE u > 900;\n"]
    script += ["SELECT * FROM t SYNC; WAIT MUTATION t 1; SELECT * FROM t; CHECK TABLE t;\n"]
    script += ["@r2 SYSTEM SYNC REPLICA t; @r2 SELECT * FROM t; @r2 CHECK TABLE t;\n"]
    in_order = sorted(rows, key=lambda row: row[0])
    updated = [(k, v + 3, u) if k < 50 else (k, u, v) for k, u, v in in_order]
    left = [row for row in updated if row[1] <= 900]
    merged, mutated = "all_0_2_1", "all_0_2_1_4"
    shown = [f"parts {mutated}\n", *answer(left), f"check {mutated} {digest(left)}\n"]
    output = ["ok\npart all_0_0_0\npart all_1_1_0\npart all_2_2_0\n"]
    output += [f"optimized {merged}\nparts {merged}\n", *answer(rows), f"check {merged} {digest(in_order)}\n"]
    output += ["mutation 0000000000\nmutation 0000000001\n", *answer(left), "done 0000000001\n"]
    output += [*shown, "ok\n", *shown]
    yield case("3,501 rows that look random", script, output)


def random_rows(seed, count):
    """Numbers by xorshift with 13, 7 and 17, three a row; keys below 100, so that many are equal."""

    def numbers(x):
        while True:
            x ^= x << 13 & 2**64 - 1
            x ^= x >> 7
            x ^= x << 17 & 2**64 - 1
            yield x

    drawn = numbers(seed)
    return [(next(drawn) % 100, next(drawn) % 1000, next(drawn) % 1000) for _ in range(count)]


def records(rows):
    return (f"{k},{u},{v}\n" for k, u, v in rows)


def answer(rows):
    """The reply to a SELECT of all columns: the records in ascending order."""
    return [f"rows {len(rows)}\n", *records(sorted(rows))]


def digest(rows):
    """The SHA-256 of the bytes of a part whose rows are in the order of the key (crates/rmt_format/README.md)."""

    def numbers(length, *all):
        return b"".join(number.to_bytes(length, "big") for number in all)

    granules = [rows[at : at + 8] for at in range(0, len(rows), 8)]
    columns = b"".join(b"\1" + numbers(2, 1) + name for name in (b"k", b"u", b"v"))
    head = b"RMTPART1" + numbers(2, 3) + columns + numbers(2, 1, 0) + numbers(4, 8, len(rows), len(granules))
    values = b"".join(numbers(8, *itertools.chain(*zip(*granule))) for granule in granules)
    body = head + values + numbers(8, *(granule[0][0] for granule in granules))
    return hashlib.sha256(body + hashlib.sha256(body).digest()).hexdigest()


SUBJECTS = {
    "calls": calls, "costs": costs, "grammar": grammar, "lanes": lanes, "limits": limits, "merges": merges,
    "quorum": quorums,
}  # fmt: skip
