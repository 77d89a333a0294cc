"""Random scripts: mostly statements that are played, some that are refused, and some with a token too few, too many or
out of place. A quarter of them are INSERTs for the most part, among them some that are sent again, SELECTs and
EXPLAINs. The others, the busy ones, change what was inserted, by commands, drops, merges and background work at all
replicas. Sometimes a replica goes down, and mostly it comes up again a few statements later. In more than half of the
scripts there are quorum inserts and sequential SELECTs. In these, and in some of the others, replicas stop fetches,
meet statements that want them, and mostly start them again. In half of all there are LANES, in which the same comes
about as outside: blocks that are sent again, mutations, drops, and replicas that are down, fetch nothing or meet a
quorum."""
import random

COLUMNS = ["a", "b", "c", "d", "k", "day", "page"]
TYPES = ["UInt64", "Int64", "String"]
NUMBERS = ["0", "1", "2", "3", "5", "7", "10", "007"]
WIDE = [str(2**63 - 1), str(2**63), str(2**64 - 1), str(2**64), str(2**128 - 1), str(2**128)]
DIVISORS = ["1", "2", "2", "3", "5", "10", "002", "1000", str(2**63), str(2**64 - 1)]
NO_DIVISORS = ["0", "000", str(2**64), str(2**128 - 1)]
WINDOWS = ["0", "1", "2", "3", "4", "100", "100000"]
NO_WINDOWS = ["100001", str(2**32), str(2**128 - 1)]
GRANULARITIES = ["1", "2", "3"] * 4 + ["8192", "65536"]
NO_GRANULARITIES = ["0", "65537", "5000000000"]
TEXTS = ["''", "'a'", "'b'", "'ab'", "'x,y'", "'it''s'", "'q\"q'", r"'\n'", r"'\\'", r"'\''", r"'\0'", r"'z\tz'", "'A'"]
FIELDS = ["", "a", "b", "x y", '"q"', '"a,b"', '"say ""hi"""', 'a"b', '"ab"c', '"l1\nl2"', " s ", "-", "'x'", "\u00e9"]
STRAY = ["", " 1", "+1", "1 ", "-0", "00", "0" * 40]
NO_PARTITIONS = ["0", str(2**64), "tuple()", "ID 'all'", "ID 'All'", "ID ''", "ID '00'", "ID '01'", "ID '-1'"]
NO_PARTITIONS += ["ID '1 '", f"ID '{2**64}'", f"ID '{10**30}'"]
# how many of the statements of a busy script are of each kind
BUSY = {
    "insert": 26, "many": 1, "reload": 5, "update": 9, "delete": 3, "drop": 4, "optimize": 8, "wait": 8, "work": 12,
    "show": 8, "system": 5, "select": 14, "explain": 4, "create": 2, "other": 2, "check": 6, "kill": 3, "lost": 2,
    "lanes": 9,
}  # fmt: skip
# the same, where replicas stop fetches, and where there are quorums
SWITCHES = {**BUSY, "switch": 8, "halted": 14, "system": 8, "lanes": 14}
QUORUMS = {**BUSY, "switch": 14, "unmet": 20, "met": 12, "lacking": 6, "lost": 4, "system": 8, "lanes": 22}
NO_QUORUMS = ["4294967295", "4294967296", str(2**64), str(2**128 - 1)]
NO_CONSISTENCIES = ["2", "4294967295", "4294967296", str(2**128 - 1)]
NOISE = (
    "( ) , ; = < - @ * ! + WHERE SELECT FROM a t 1 'x' GROUP BY VALUES FORMAT CSV TABLE 'open 'bad\\q' -- and SYNC"
    " indexes SETTINGS count tuple END LANE"
).split() + ["9" * 40, "w" * 256]
SPACES = [" ", " ", " ", "\n", "  ", "\t", "\r\n", " -- c;omment 'x\n"]


class Raw(str):
    """The data of an INSERT, which white space doesn't stand before."""


class Scripts:
    def __init__(self, seed):
        self.random = random.Random(seed)
        self.tables, self.replicas, self.down = {}, 2, set()
        self.keys, self.rules = {}, {}  # of each table the columns that no UPDATE sets, and its rule's divisor or None
        self.commands = {}  # how many commands were made for each table, those left out that are likely to be refused
        self.is_busy, self.next = False, []  # and how the statements are made that come next in a busy script
        self.inserts, self.share = {}, 0.45  # the INSERTs of each table so far, and how many of the statements are one
        self.is_wild = False  # whether a statement may have values that are none of their column
        self.has_quorums, self.has_switches = False, False
        self.stopped = {}  # of each table the replicas that have fetches stopped
        self.is_in_lane = False  # whether what is made comes into a lane, where no statement has settings

    def chance(self, share):
        return self.random.random() < share

    def one(self, things):
        return self.random.choice(things)

    def keyword(self, word):
        return self.one([word] * 8 + [word.lower(), "".join(self.one([c.lower(), c]) for c in word)])

    def keywords(self, words):
        return [self.keyword(word) for word in words.split()]

    def commas(self, lists):
        return [token for place, tokens in enumerate(lists) for token in ([","] if place else []) + tokens]

    def number(self, kind):
        if self.is_wild and self.chance(0.1):
            return [self.one(WIDE)]
        minus = ["-"] if self.chance(0.35 if kind == "Int64" else 0.03 if self.is_wild else 0) else []
        return minus + [self.one(NUMBERS if self.chance(0.95) else WIDE[: 3 if kind == "UInt64" else 1])]

    def literal(self, kind):
        kind = self.one(TYPES) if kind is None or self.is_wild and self.chance(0.05) else kind
        return [self.one(TEXTS)] if kind == "String" else self.number(kind)

    def table(self):
        return self.one(list(self.tables)) if self.tables and self.chance(0.97) else self.one(["t", "u", "nope"])

    def columns(self, table):
        return self.tables.get(table) or [("a", "UInt64")]

    def column(self, table):
        return self.one(self.columns(table))[0] if self.chance(0.97) else self.one(COLUMNS)

    def number_of_replica(self):
        return self.random.randint(1, self.replicas if self.chance(0.97) else 9)

    def replica(self):
        return ["@", f"r{self.number_of_replica()}"] if self.chance(0.5) else []

    # ---- statements, as lists of tokens

    def create(self):
        table, is_right = self.one(["t", "u", "v", "w", "x"]), self.chance(0.95 if self.is_busy else 0.75)
        count = self.one([3, 4] if self.is_busy else [1, 2, 3, 4])
        names = COLUMNS[:count] if self.chance(0.8) else self.random.sample(COLUMNS, count)
        names = [self.one(names) for _ in names] if not is_right and self.chance(0.2) else names
        if self.chance(0.02):
            names = ["c%d" % i for i in range(self.one([64] if is_right else [64, 65]))]
        columns = [(name, self.one(["UInt64"] + TYPES)) for name in names]
        key = self.random.sample(names, self.random.randint(0, min(3, len(names))))
        key = key[: self.one([0, 1, 1])] if self.is_busy else key
        key += [self.one([names[0], "zz"])] if not is_right and self.chance(0.3) else []
        tokens = self.keywords("CREATE TABLE") + [table, "("] + self.commas([list(column) for column in columns])
        tokens += [")", self.keyword("ENGINE"), "=", "ReplicatedMergeTree"]
        tokens += self.one([[], [], [], ["(", ")"], ["(", "'/p'", ",", "'{replica}'", ")"]])
        rule, column, divisor = self.rule(columns, is_right)
        tokens += rule + self.keywords("ORDER BY")
        if not key:
            tokens += ["tuple", "(", ")"]
        else:
            is_bare = len(key) == 1 and self.chance(0.6)
            tokens += key if is_bare else ["("] + self.commas([[name] for name in key]) + [")"]
        if is_right and table not in self.tables and len(self.tables) < 4:
            self.tables[table], self.keys[table], self.rules[table] = columns, key + [column], divisor
        return tokens + self.settings(is_right)

    def rule(self, columns, is_right):
        """PARTITION BY, or nothing; its column and divisor. Partitions are few, so that INSERTs are over some of them
        and meet them again."""
        names = [name for name, kind in columns if kind == "UInt64"]
        names += [] if is_right else [name for name, _ in columns] + ["yy"]
        if not names or self.chance(0.45 if self.is_busy else 0.35):
            return self.keywords("PARTITION BY") + ["tuple", "(", ")"] if self.chance(0.1) else [], None, None
        column, divisor = self.one(names), self.one(DIVISORS if is_right or self.chance(0.6) else NO_DIVISORS)
        if self.chance(0.15 if self.is_busy else 0.45):
            return self.keywords("PARTITION BY") + [column], column, "1"
        return self.keywords("PARTITION BY") + ["intDiv", "(", column, ",", divisor, ")"], column, divisor

    def settings(self, is_right):
        granularity = self.one(GRANULARITIES if is_right or self.chance(0.6) else NO_GRANULARITIES)
        window = self.one(WINDOWS if is_right or self.chance(0.6) else NO_WINDOWS)
        both = [["index_granularity", "=", granularity], ["replicated_deduplication_window", "=", window]]
        chosen = self.random.sample(both, self.one([0, 1, 1, 2]))
        chosen += [self.one(both)] if chosen and self.chance(0.02) else []
        return [self.keyword("SETTINGS")] + self.commas(chosen) if chosen else []

    def insert(self, table=None, share=0.45, number=None, quorum=None):
        """An INSERT; such a share of them are earlier ones once more."""
        table = self.table() if table is None else table
        earlier = self.inserts.setdefault(table, [])
        is_again = earlier and self.chance(share)
        last = earlier[-self.one([2, 4, 40]) :]
        names, is_csv, rows = self.again(*self.one(last)) if is_again else self.offered(table)
        earlier.append((names, is_csv, rows))
        tokens = self.replica() if number is None else ["@", f"r{number}"]
        tokens += self.keywords("INSERT INTO") + ([self.keyword("TABLE")] if self.chance(0.15) else [])
        tokens += [table] + (["("] + self.commas([[name] for name in names]) + [")"] if names else [])
        tokens += self.quorum() if quorum is None else [self.keyword("SETTINGS"), "insert_quorum", "=", str(quorum)]
        if is_csv:
            return tokens + self.keywords("FORMAT CSV") + [self.data(rows)]
        tokens += [self.keyword("VALUES")]
        for place, row in enumerate(rows):
            tokens += ([","] if place and self.chance(0.8) else []) + ["("] + self.commas(row) + [")"]
        return tokens

    def quorum(self):
        """The setting of an INSERT, or nothing: mostly a quorum that can be met if the other replicas fetch."""
        if self.is_in_lane or not self.has_quorums:
            return ["SETTINGS", "insert_quorum", "=", "2"] if self.chance(0.01) else []
        if self.chance(0.5):
            return []
        number = str(self.random.randint(2, max(2, self.replicas - len(self.down))))
        if self.chance(0.15):
            number = self.one(["0", "1", "1", "02", str(self.replicas), str(self.replicas + 1), "9"])
        number = self.one(NO_QUORUMS) if self.is_wild and self.chance(0.2) else number
        return [self.keyword("SETTINGS"), "insert_quorum", "=", number]

    def offered(self, table):
        """Columns or none, whether the rows are CSV, and rows, each field a list of tokens."""
        used, names = self.columns(table), []
        if self.chance(0.3):
            used = self.random.sample(used, self.random.randint(1, len(used)))
            used += [self.one(used)] if self.is_wild and self.chance(0.1) else []
            names = ["zz" if self.is_wild and self.chance(0.05) else name for name, _ in used]
        count, is_csv = self.one([0, 1, 1, 2, 3, 5, 8]), self.chance(0.4)
        field = self.field if is_csv else self.literal
        rows = [[field(kind) for _, kind in used] for _ in range(count if is_csv else max(count, 1))]
        return names, is_csv, [row + ([["1"]] if self.is_wild and self.chance(0.03) else []) for row in rows]

    def again(self, names, is_csv, rows):
        """An earlier INSERT once more: mostly as it was, else in another order, spelled otherwise, or with a row less
        or more, which leaves the blocks of other partitions as they were."""
        turn = self.random.random()
        if turn < 0.12:
            rows = self.random.sample(rows, len(rows))
        elif turn < 0.24:
            rows = [[["0" + t if t.isdigit() else t for t in field] for field in row] for row in rows]
        elif turn < 0.44 and len(rows) > 1:
            rows = rows[1:] if self.chance(0.5) else rows + rows[:1]
        return names, is_csv, rows

    def field(self, kind):
        if kind == "String" or self.is_wild and self.chance(0.02):
            return [self.one(FIELDS)]
        return [self.one(STRAY)] if self.is_wild and self.chance(0.02) else self.number(kind)

    def data(self, rows):
        ends = self.one(["\n", "\n", "\n", "\r\n", "\r"])
        lines = ""
        for row in rows:
            lines += ",".join("".join(field) for field in row) + ends * (2 if self.chance(0.1) else 1)
        mark = "\ufeff" if self.chance(0.02) else ""
        rest = self.one(["", "", " ", "\r", "\t"])
        return Raw(rest + "\n" + mark + lines + ("\n" if ends == "\r" else "") + self.one([";\n", ";\n", ";\r\n"]))

    def filter(self, table, depth=0):
        turn = self.random.random()
        if depth > 4 or turn < 0.45:
            column = self.column(table)
            sign = self.one(["=", "!=", "<>", "<", "<=", ">", ">="])
            return [column, sign] + self.literal(dict(self.columns(table)).get(column))
        if turn < 0.6:
            return [self.keyword("NOT")] + self.filter(table, depth + 1)
        if turn < 0.7:
            return ["("] + self.filter(table, depth + 1) + [")"]
        word = self.keyword(self.one(["AND", "AND", "OR"]))
        return self.filter(table, depth + 1) + [word] + self.filter(table, depth + 1)

    def item(self, table, group, adds_up):
        turn = self.random.random()
        if not adds_up and turn < 0.95:
            return [self.column(table)]
        if group and turn < 0.4:
            return [self.one(group)]
        if turn < 0.5:
            return [self.keyword("COUNT"), "("] + (["*"] if self.chance(0.4) else []) + [")"]
        return [self.keyword(self.one(["SUM", "MIN", "MAX"])), "(", self.column(table), ")"]

    def plain_select(self):
        table = self.table()
        group = [self.column(table) for _ in range(self.one([1, 2]))] if self.chance(0.35) else []
        adds_up = bool(group) or self.chance(0.6)
        items = [self.item(table, group, adds_up) for _ in range(self.one([1, 2, 3, 4]))]
        tokens = [self.keyword("SELECT")] + (["*"] if self.chance(0.25) else self.commas(items))
        tokens += [self.keyword("FROM"), table]
        tokens += [self.keyword("WHERE")] + self.filter(table) if self.chance(0.5) else []
        return tokens + (self.keywords("GROUP BY") + self.commas([[name] for name in group]) if group else [])

    def select(self):
        tokens = self.replica() + self.plain_select()
        if self.has_quorums and self.chance(0.5):
            return tokens + self.consistency()
        if self.chance(0.5):
            return tokens + [self.keyword("SYNC")]
        return tokens + (["SETTINGS", "select_sequential_consistency", "=", "1"] if self.chance(0.02) else [])

    def explain(self):
        indexes = ["indexes", "=", "1"] if self.chance(0.4) else []
        return self.replica() + [self.keyword("EXPLAIN")] + indexes + self.plain_select()

    # ---- what changes rows and parts

    def alter(self, table):
        return self.replica() + self.keywords("ALTER TABLE") + [table]

    def command(self, table, tokens):
        """A command of these words over some of the rows."""
        self.commands[table] = self.commands.get(table, 0) + (0 if self.is_wild else 1)
        return self.alter(table) + tokens + [self.keyword("WHERE")] + self.filter(table, 2)

    def update(self, table=None):
        table = self.table() if table is None else table
        free = [column for column in self.columns(table) if column[0] not in self.keys.get(table, [])]
        sets = self.random.sample(free, min(len(free), self.one([1, 1, 2, 3])))
        if not sets or self.is_wild and self.chance(0.3):
            sets = [self.one(self.columns(table) + [("zz", "UInt64")]) for _ in range(self.one([1, 2]))]
        elif self.chance(0.04):
            sets.append(self.one([column for column in self.columns(table) if column not in free] or sets))
        assignments = [[name, "="] + self.right(table, kind) for name, kind in sets]
        return self.command(table, [self.keyword("UPDATE")] + self.commas(assignments))

    def right(self, table, kind):
        same = [name for name, other in self.columns(table) if other == kind or self.is_wild and self.chance(0.1)]
        turn = self.random.random()
        if turn < 0.35 or not same:
            return self.literal(kind)
        if turn < 0.55 or kind == "String" and not self.is_wild:
            return [self.one(same)]
        return [self.one(same), self.one("+-"), self.one(NUMBERS if self.chance(0.85) else WIDE)]

    def delete(self, table=None):
        return self.command(self.table() if table is None else table, [self.keyword("DELETE")])

    def partition(self, table):
        rule, number = self.rules.get(table), int(self.one(NUMBERS))
        if self.is_wild and self.chance(0.7):
            return [self.one(NO_PARTITIONS)]
        if rule is None:
            return self.one([["tuple", "(", ")"], [self.keyword("ID"), "'all'"]])
        number = str(number // max(1, int(rule)))
        return self.one([[number], ["0" + number], [self.keyword("ID"), f"'{number}'"]])

    def drop(self, table=None):
        if table is None:
            table = self.table()
            self.next += [lambda: self.work(table)] if self.chance(0.4) else []
            self.next += self.sequentials(table) if self.has_quorums and self.chance(0.6) else []
        return self.alter(table) + self.keywords("DROP PARTITION") + self.partition(table)

    def many(self):
        """Blocks of one row each, of one partition if it may be, and background work after them."""
        table, at = self.table(), self.replica()
        rule = self.keys.get(table, [None])[-1]
        values = [["''"] if kind == "String" else ["0"] for _, kind in self.columns(table)]
        free = [place for place, (name, kind) in enumerate(self.columns(table)) if kind != "String" and name != rule]
        for number in range(self.random.randint(9, 13)):
            row = self.commas([[str(number)] if [place] == free[:1] else value for place, value in enumerate(values)])
            self.next.append(lambda row=row: at + ["INSERT", "INTO", table, "VALUES", "("] + row + [")"])
        self.next += [lambda: self.work(table)] * 2
        return at + ["SHOW", "PARTS", "FROM", table]

    def reload(self):
        """A drop, and then an INSERT of what may have been dropped."""
        table = self.table()
        self.next.append(lambda: self.insert(table, 1))
        return self.drop(table)

    def optimize(self, table=None):
        table = self.table() if table is None else table
        partition = [self.keyword("PARTITION")] + self.partition(table) if self.chance(0.25) else []
        return self.replica() + self.keywords("OPTIMIZE TABLE") + [table] + partition + [self.keyword("FINAL")]

    def wait(self):
        """A wait for a mutation, often the last one; sometimes all parts are merged afterwards."""
        table = self.table()
        if table not in self.commands and self.chance(0.9):
            return self.insert()
        last = max(0, self.commands.get(table, 0) - 1)
        id_ = self.one([last, last, self.random.randint(0, last), last + 1 if self.chance(0.3) else last])
        id_ = self.one(WIDE) if self.is_wild and self.chance(0.2) else str(id_)
        self.next += [lambda: self.optimize(table)] if self.chance(0.4) else []
        return self.replica() + self.keywords("WAIT MUTATION") + [table, id_]

    def work(self, table=None):
        """Background work, and often a look at what came of it."""
        table = self.table() if table is None else table
        turns, seed = self.random.randint(0, 60), self.random.randrange(2**31)
        turns = self.one(["1000001", str(2**32), str(2**128 - 1)]) if self.is_wild and self.chance(0.1) else str(turns)
        seed = self.one([str(2**31), str(2**64), str(2**128 - 1)]) if self.is_wild and self.chance(0.1) else str(seed)
        if self.chance(0.5):
            self.next += [lambda number=number: self.show(table, number + 1) for number in range(self.replicas)]
        return [self.keyword("RUN"), table, turns, self.keyword("SEED"), seed]

    def show(self, table=None, number=None):
        at = self.replica() if number is None else ["@", f"r{number}"]
        return at + self.keywords("SHOW PARTS FROM") + [self.table() if table is None else table]

    def check(self, table=None, number=None):
        at = self.replica() if number is None else ["@", f"r{number}"]
        return at + self.keywords("CHECK TABLE") + [self.table() if table is None else table]

    def system(self):
        words = self.one(["SYSTEM SYNC REPLICA", "SYSTEM RESTART REPLICA"])
        return self.replica() + self.keywords(words) + [self.table()]

    # ---- replicas that stop fetches

    def switch(self, table=None, number=None, stops=None):
        """STOP FETCHES, or START FETCHES, mostly of a replica that has them stopped."""
        table = self.table() if table is None else table
        stopped = self.stopped.setdefault(table, set())
        stops = self.chance(0.4 if stopped else 0.8) if stops is None else stops
        if number is None:
            number = self.number_of_replica() if stops or not stopped else self.one(sorted(stopped))
        stopped.add(number) if stops else stopped.discard(number)
        at = [] if number == 1 and self.chance(0.3) else ["@", f"r{number}"]
        return at + self.keywords(f"SYSTEM {'STOP' if stops else 'START'} FETCHES") + [table]

    def halted(self):
        """A replica that stops fetches; blocks that others take meanwhile, and what it is sent itself; and mostly the
        switch back, and a look at what it has then."""
        table, number = self.table(), self.random.randint(1, self.replicas)
        others = [other for other in range(1, self.replicas + 1) if other != number] or [number]
        self.next += [lambda: self.insert(table, 0.1, self.one(others))] * self.random.randint(1, 3)
        self.next += [lambda: self.meet_halted(table, number, others) for _ in range(self.random.randint(2, 7))]
        if self.chance(0.8):
            self.next += [lambda: self.switch(table, number, False)]
            self.next += [lambda: self.work(table)] if self.chance(0.3) else []
            self.next += [lambda: self.want(table, number)]
        return self.switch(table, number, True)

    def meet_halted(self, table, number, others):
        """A statement to which it may matter that this replica fetches nothing."""
        other = self.one(others)
        return self.one([
            lambda: self.want(table, number), lambda: self.want(table, number), lambda: self.want(table, number),
            lambda: self.want(table, other), lambda: self.work(table), lambda: self.insert(table, 0.3, number),
            lambda: self.insert(table, 0.3, other), lambda: self.update(table), lambda: self.merge(table, other),
            lambda: ["@", f"r{number}"] + self.plain_select(), lambda: self.session(table, number), self.lanes,
            lambda: self.switch(table, other), lambda: self.restart(number) if number in self.down else self.kill(number),
            lambda: self.drop(table) if self.chance(0.4) else self.check(table, number),
        ])()  # fmt: skip

    def session(self, table, number):
        return ["@", f"r{number}"] + self.keywords("SYSTEM RESTART REPLICA") + [table]

    # ---- quorums

    def unmet(self):
        """A quorum that isn't met as other replicas have fetches stopped or are down; statements that find its part
        pending; and mostly the switches and statements by which it is met, and a look at what was."""
        table, number = self.table(), self.random.randint(1, self.replicas)
        others = [other for other in range(1, self.replicas + 1) if other != number] or [number]
        stopped = [other for other in others if self.chance(0.85)]
        need = self.random.randint(2, max(2, self.replicas))
        self.next += [lambda other=other: self.switch(table, other, True) for other in stopped]
        self.next += [lambda: self.insert(table, 0.1, number, need)]
        self.next += [lambda: self.meet_pending(table, number) for _ in range(self.random.randint(2, 8))]
        for other in [other for other in stopped if self.chance(0.8)]:
            self.next += [lambda other=other: self.switch(table, other, False)]
            self.next += [lambda: self.work(table)] if self.chance(0.3) else []
            self.next += [lambda other=other: self.want(table, other)] if self.chance(0.8) else []
        self.next += [lambda: self.sequential(table, self.one(others)) for _ in range(self.random.randint(0, 3))]
        return self.insert(table, 0.1, number, self.one([0, 1]))

    def lacking(self):
        """A pending part, and after it the block of a replica that goes down. Another one that has the part lacks the
        block then, and is noted once it is brought up to date. Before that it meets other statements."""
        if self.replicas < 3:
            return self.unmet()
        table, numbers = self.table(), range(1, self.replicas + 1)
        number, other, lost = self.random.sample(numbers, 3)
        self.next += [lambda each=each: self.switch(table, each, each != number) for each in numbers]
        self.next += [lambda: self.insert(table, 0, number, 2), lambda: self.insert(table, 0, lost, 0)]
        self.next += [lambda: self.kill(lost)]
        self.next += [lambda: self.switch(table, other, False), lambda: self.want(table, other)]
        for _ in range(self.random.randint(1, 3)):
            self.next += [lambda: self.one([
                lambda: self.insert(table, 0.1, other, 0), lambda: self.drop(table), lambda: self.work(table),
                lambda: self.want(table, other), lambda: self.sequential(table, other), lambda: self.update(table),
            ])()]  # fmt: skip
        self.next += [lambda: self.insert(table, 0.9, other, 2), lambda: self.restart(lost)]
        self.next += [lambda: self.work(table)] if self.chance(0.5) else []
        self.next += [lambda: self.insert(table, 0.9, number, 2), lambda: self.want(table, other)]
        return self.sequential(table, other)

    def met(self):
        """A quorum that some of the replicas meet, and sequential SELECTs at all of them, the last ones mostly without
        the part."""
        table, number = self.table(), self.random.randint(1, max(1, self.replicas - 1))
        self.next += [lambda: self.want(table, self.replicas)] if self.chance(0.3) else []
        self.next += self.sequentials(table)
        self.next += [lambda: self.drop(table)] + self.sequentials(table) if self.chance(0.3) else []
        return self.insert(table, 0.1, number, self.random.randint(2, max(2, self.replicas - 1)))

    def sequentials(self, table):
        """How sequential SELECTs are made at all replicas."""
        return [lambda number=number: self.sequential(table, number) for number in range(1, self.replicas + 1)]

    def meet_pending(self, table, number):
        """A statement to which a pending part may matter; such a part was inserted at the replica of this number."""
        other = self.number_of_replica()
        return self.one([
            lambda: self.insert(table, 0.3, None, self.random.randint(2, self.replicas + 1)),
            lambda: self.insert(table, 0.3, None, 2), lambda: self.insert(table, 0.9, None, 2),
            lambda: self.insert(table, 0.9, number), lambda: self.insert(table, 0.3, number),
            lambda: self.sequential(table, number), lambda: self.sequential(table, other),
            lambda: self.merge(table, number), lambda: self.merge(table, number), lambda: self.want(table, number),
            lambda: self.want(table, other), lambda: self.work(table), lambda: self.update(table),
            lambda: self.restart(other) if other in self.down else self.kill(other),
            lambda: self.drop(table) if self.chance(0.3) else self.show(table, number), self.lanes,
        ])()  # fmt: skip

    def merge(self, table, number):
        return ["@", f"r{number}"] + self.keywords("OPTIMIZE TABLE") + [table, self.keyword("FINAL")]

    def sequential(self, table, number):
        """A sequential SELECT of all that a replica may read."""
        return ["@", f"r{number}", "SELECT", "*", "FROM", table] + self.consistency()

    def consistency(self):
        """The setting of a SELECT, which mostly asks for a sequential one."""
        number = self.one(NO_CONSISTENCIES) if self.is_wild and self.chance(0.2) else self.one(["1"] * 6 + ["0"])
        return [self.keyword("SETTINGS"), "select_sequential_consistency", "=", number]

    # ---- replicas that go down and come up again

    def kill(self, number=None):
        """The end of a replica, and often background work without it."""
        number = self.number_of_replica() if number is None else number
        self.down |= {number} if number <= self.replicas else set()
        self.next += [self.work] if self.is_busy and self.chance(0.5) else []
        self.next += [lambda: self.insert(quorum=self.replicas)] if self.has_quorums and self.chance(0.4) else []
        return [self.keyword("KILL"), self.one(["r0", "R1", "r01"]) if self.chance(0.03) else f"r{number}"]

    def restart(self, number=None):
        """The restart of a replica, mostly of one that is down."""
        downs = sorted(self.down)
        if number is None:
            number = self.one(downs) if downs and self.chance(0.9) else self.number_of_replica()
        self.down.discard(number)
        return [self.keyword("RESTART"), f"r{number}"]

    def lost(self):
        """An INSERT at a replica that goes down then, which another one may have the block of; and statements that want
        it, until the replica comes up again."""
        table, number = self.table(), self.random.randint(1, self.replicas)
        others = [other for other in range(1, self.replicas + 1) if other != number] or [number]
        wants = [lambda: self.want(table, self.one(others)) for _ in range(self.random.randint(1, 5))]
        sync = ["@", f"r{self.one(others)}", "SYSTEM", "SYNC", "REPLICA", table]
        self.next += [lambda: sync] if self.chance(0.6) else []
        self.next += [lambda: self.work(table)] if self.chance(0.3) else []
        self.next += [lambda: self.kill(number)] + wants
        self.next += [lambda: self.restart(number)] if self.chance(0.8) else []
        self.next += [lambda: self.want(table, self.one(others))]
        return self.insert(table, 0, number)

    def want(self, table, number):
        """A statement that brings a replica up to date, or tells how far it got."""
        last = str(max(0, self.commands.get(table, 0) - 1))
        return ["@", f"r{number}"] + self.one([
            ["SELECT", "*", "FROM", table, "SYNC"], ["SYSTEM", "SYNC", "REPLICA", table],
            ["OPTIMIZE", "TABLE", table, "FINAL"], ["WAIT", "MUTATION", table, last],
            ["SHOW", "PARTS", "FROM", table], ["CHECK", "TABLE", table],
        ])  # fmt: skip

    # ---- lanes

    def lanes(self):
        """A few lanes of a few statements each, and often a look at what came of them. Lanes are often at a replica of
        their own, and often in one table."""
        table, count = self.table() if self.chance(0.7) else None, self.one([1, 2, 2, 2, 2, 3, 3, 4, 8])
        if self.is_busy and self.chance(0.5):
            looked_at = self.table() if table is None else table
            self.next += [lambda n=n: self.want(looked_at, n) for n in range(1, self.replicas + 1) if self.chance(0.7)]
        tokens, self.is_in_lane = [self.keyword("LANES"), ";"], True
        for _ in range(self.one([0, 9]) if self.chance(0.02) else count):
            tokens += [self.keyword("LANE"), ";"]
            number = self.number_of_replica() if self.chance(0.6) else None
            for _ in range(self.one([0, 1, 1, 2, 2, 3, 3, 5])):
                statement = self.lane_statement(self.table() if table is None else table, number)
                tokens += statement + ([] if isinstance(statement[-1], Raw) else [";"])
        self.is_in_lane = False
        return tokens + [self.keyword("END")]

    def lane_statement(self, table, number):
        """A statement of a lane: mostly at the replica of this number, if there is one. A few may stand in none."""
        if self.chance(0.01):
            return self.one([self.want(table, 1), self.work(table), self.kill(), self.keywords("LANES"), [";"]])
        makes = [lambda: self.insert(table, 0.45)] * 5 + [lambda: self.lane_select(table)] * 4
        makes += [lambda: self.update(table)] * 2 + [lambda: self.drop(table), lambda: self.delete(table)]
        tokens = self.one(makes)()
        if number is None or self.chance(0.1):
            return tokens
        return ["@", f"r{number}"] + (tokens[2:] if tokens[0] == "@" else tokens)

    def lane_select(self, table):
        """A SELECT of what some statement made, often with SYNC; the table may be another one."""
        tokens = self.plain_select() if self.chance(0.5) else ["SELECT", "*", "FROM", table]
        return self.replica() + tokens + ([self.keyword("SYNC")] if self.chance(0.5) else [])

    def everywhere(self):
        """What there is of a table in the end, at each replica: its parts, all its rows, and the digests of the parts
        that it has then."""
        table = self.table()
        for number in sorted(self.down) if self.chance(0.8) else []:
            yield self.restart(number)
        for number in range(1, self.replicas + 1):
            if self.has_quorums:
                yield self.sequential(table, number)
            if self.has_switches:
                yield self.switch(table, number, self.chance(0.1))
            yield self.show(table, number)
            yield ["@", f"r{number}", "SELECT", "*", "FROM", table, "SYNC"]
            yield self.check(table, number)

    def other(self):
        table = self.table()
        alter = self.keywords("ALTER TABLE") + [table]
        update = [self.keyword("UPDATE"), self.column(table), "="] + self.literal(None) + ["WHERE"] + self.filter(table)
        return self.one([
            self.replica() + alter + update, alter + ["DELETE", "WHERE"] + self.filter(table),
            alter + ["DROP", "PARTITION", "ID", "'all'"], ["OPTIMIZE", "TABLE", table, "FINAL"],
            ["SHOW", "PARTS", "FROM", table], ["CHECK", "TABLE", table], ["WAIT", "MUTATION", table, "0"],
            ["SYSTEM", "SYNC", "REPLICA", table], ["RUN", table, "3", "SEED", "4"],
            ["REPLICAS", "3"], ["LANES", ";", "LANE", ";"] + self.lane_select(table) + [";", "LANE", ";", "END"],
        ])  # fmt: skip

    def busy_statement(self):
        self.is_wild = self.chance(0.12)
        if self.next:
            return self.next.pop(0)()
        if not self.tables:
            return self.create()
        if self.down and self.chance(0.2):
            return self.restart()
        kinds = QUORUMS if self.has_quorums else SWITCHES if self.has_switches else BUSY
        return getattr(self, self.random.choices(list(kinds), kinds.values())[0])()

    def statement(self):
        if self.is_busy:
            return self.busy_statement()
        self.is_wild = self.chance(0.3)
        if not self.tables or self.chance(0.08):
            return self.create()
        if self.down and self.chance(0.2):
            return self.restart()
        if self.chance(self.share):
            return self.insert()
        if self.has_switches and self.chance(0.15):
            return self.switch()
        turn = self.random.random()
        if turn < 0.63:
            return self.select()
        if turn < 0.84:
            return self.explain()
        if turn < 0.88:
            return self.check()
        if turn < 0.91:
            return self.kill() if self.chance(0.8) else self.restart()
        if turn < 0.94:
            return self.lanes()
        return self.other() if turn < 0.97 else []

    # ---- noise and white space

    def with_noise(self, tokens):
        at, turn = self.random.randrange(len(tokens) + 1), self.random.random()
        if turn < 0.35:
            return tokens[:at] + tokens[at + 1 :]
        if turn < 0.7:
            return tokens[:at] + [self.one(NOISE)] + tokens[at:]
        return tokens[:at] + [self.one(NOISE)] + tokens[at + 1 :]

    def spelled(self, tokens):
        text = ""
        for token in tokens:
            last, next_ = text[-1:], token[:1]
            joins = (last.isalnum() or last == "_") and (next_.isalnum() or next_ == "_")
            joins = joins or (last and last in "<>!=-") or (last == "'" and next_ == "'")
            if not isinstance(token, Raw) and (joins or self.chance(0.5)):
                text += self.one(SPACES)
            text += token
        return text

    def ended(self, tokens):
        ends_itself = bool(tokens) and isinstance(tokens[-1], Raw)
        return self.spelled(tokens) + ("" if ends_itself else self.one([";", ";\n", "; "]))

    def script(self):
        text = ""
        if self.chance(0.01):
            return f"REPLICAS {self.random.randint(1, 9)}{self.one(SPACES)}".encode()
        self.is_busy = self.chance(0.5)
        self.has_quorums = self.chance(0.6)
        self.is_busy = self.is_busy or self.has_quorums and self.chance(0.85)
        self.has_switches = self.has_quorums or self.chance(0.5 if self.is_busy else 0.25)
        if self.chance(0.8 if self.is_busy else 0.4):
            self.replicas = self.random.randint(2 if self.has_switches else 1, 4 if self.is_busy else 8)
            text += self.spelled([self.keyword("REPLICAS"), str(self.replicas), ";"])
        count = self.random.randint(3, 14)
        if self.chance(0.3):
            count, self.share = self.random.randint(15, 40), 0.7
        count = self.random.randint(15, 45) if self.is_busy else count
        for place in range(count):
            noisy = 0.06 if not self.is_busy else 0.025 if place > 0 else 0
            tokens = self.statement()
            text += self.ended(self.with_noise(tokens) if self.chance(noisy) else tokens)
        for tokens in self.everywhere() if self.is_busy and self.chance(0.7) else []:
            text += self.ended(tokens)
        return (text.rstrip().rstrip(";") if self.chance(0.3) else text).encode()
