#!/usr/bin/env python3
"""The language of scripts once more, written from its description and not from the program: reads a script from standard
input, writes its replies and ends with the program's code. It is slow and shares nothing with the program, so that the
two can be compared (reference/check). Where the description leaves a choice it is that of docs/DECISIONS.md. What
happens to a table is in cluster.py."""
import hashlib
import sys

import cluster
from cluster import Refusal

WHITE = b" \t\r\n"
DIGITS = b"0123456789"
LETTERS = b"abcdefghijklmnopqrstuvwxyzABCDEFGHIJKLMNOPQRSTUVWXYZ_"
ESCAPES = {ord("'"): 39, ord("\\"): 92, ord("n"): 10, ord("r"): 13, ord("t"): 9, ord("0"): 0}
SYMBOLS = ["!=", "<>", "<=", ">=", "(", ")", ",", ";", "=", "<", ">", "+", "-", "*", "@"]


# ---- tokens


class Token:
    def __init__(self, kind, value, start, end):
        self.kind, self.value, self.start, self.end = kind, value, start, end


class Text:
    """A script, its tokens, and the furthest token that no form could take."""

    def __init__(self, script):
        self.script, self.known, self.furthest = script, {}, -1

    def token(self, at):
        if at not in self.known:
            self.known[at] = self.scan(self.after_white(at))
        return self.known[at]

    def after_white(self, at):
        script = self.script
        while at < len(script):
            if script[at] in WHITE:
                at += 1
            elif script.startswith(b"--", at):
                end = script.find(b"\n", at)
                at = len(script) if end < 0 else end
            else:
                break
        return at

    def scan(self, at):
        script = self.script
        if at == len(script):
            return Token("end", None, at, at)
        if script[at] in LETTERS:
            end = self.run_of(LETTERS + DIGITS, at)
            return Token("word" if end - at <= 255 else "bad", script[at:end], at, end)
        if script[at] in DIGITS:
            end = self.run_of(DIGITS, at)
            is_number = end - at <= 39 and int(script[at:end]) < 2**128
            return Token("number" if is_number else "bad", int(script[at:end]) if is_number else None, at, end)
        if script[at] == ord("'"):
            return self.scan_text(at)
        for symbol in SYMBOLS:
            if script.startswith(symbol.encode(), at):
                return Token("symbol", "!=" if symbol == "<>" else symbol, at, at + len(symbol))
        return Token("bad", None, at, at + 1)

    def run_of(self, allowed, at):
        while at < len(self.script) and self.script[at] in allowed:
            at += 1
        return at

    def scan_text(self, start):
        script, at, value = self.script, start + 1, bytearray()
        while at < len(script):
            if script.startswith(b"''", at):
                value.append(39)
                at += 2
            elif script[at] == ord("'"):
                return Token("text", bytes(value), start, at + 1)
            elif script[at] == ord("\\"):
                if script[at + 1 : at + 2] == b"" or script[at + 1] not in ESCAPES:
                    break
                value.append(ESCAPES[script[at + 1]])
                at += 2
            else:
                value.append(script[at])
                at += 1
        return Token("bad", None, start, at)

    def fails_at(self, at):
        self.furthest = max(self.furthest, at)
        return []


# ---- rules: from a place to all places where the form may end, each with what it says. All ways are followed, so that
# the furthest token that was refused is the first one that can't follow those before it in any form


def token(test):
    def rule(text, at):
        found = text.token(at)
        value = test(found)
        return text.fails_at(found.start) if value is None else [(found.end, value)]

    return rule


def keyword(word):
    return token(lambda t: True if t.kind == "word" and t.value.lower() == word.lower().encode() else None)


def exactly(word):
    return token(lambda t: True if t.kind == "word" and t.value == word.encode() else None)


def symbol(sign):
    return token(lambda t: True if t.kind == "symbol" and t.value == sign else None)


def number_of(lowest, highest):
    return token(lambda t: t.value if t.kind == "number" and lowest <= t.value <= highest else None)


WORD = token(lambda t: t.value if t.kind == "word" else None)
NUMBER = token(lambda t: t.value if t.kind == "number" else None)
TEXT = token(lambda t: t.value if t.kind == "text" else None)
END = token(lambda t: True if t.kind == "end" or (t.kind == "symbol" and t.value == ";") else None)
COMPARISON = token(lambda t: t.value if t.kind == "symbol" and t.value in ("=", "!=", "<", "<=", ">", ">=") else None)
FILTER_COLUMN = token(lambda t: t.value if t.kind == "word" and t.value.lower() not in (b"not", b"and", b"or") else None)


def sequence(*rules):
    def rule(text, at):
        ways = [(at, ())]
        for each in rules:
            ways = [(end, said + (value,)) for (place, said) in ways for (end, value) in each(text, place)]
        return ways

    return rule


def choice(*rules):
    return lambda text, at: [way for rule in rules for way in rule(text, at)]


def maybe(rule):
    return choice(rule, lambda text, at: [(at, None)])


def says(rule, view):
    return lambda text, at: [(end, view(value)) for (end, value) in rule(text, at)]


def only(rule, place):
    """Of what a sequence says, the one at a place."""
    return says(rule, lambda said: said[place])


def times(rule, most=None):
    def repeated(text, at):
        ways, last, count = [(at, [])], [(at, [])], 0
        while last and count != most:
            last = [(end, said + [value]) for (place, said) in last for (end, value) in rule(text, place)]
            ways, count = ways + last, count + 1
        return ways

    return repeated


def listed(rule, between=symbol(",")):
    return says(sequence(rule, times(only(sequence(between, rule), 1))), lambda said: [said[0]] + said[1])


def in_parentheses(*rules):
    return says(sequence(symbol("("), *rules, symbol(")")), lambda said: said[1:-1])


NAMES = only(in_parentheses(listed(WORD)), 0)
LITERAL = choice(
    says(TEXT, lambda text: ("text", text)),
    says(sequence(maybe(symbol("-")), NUMBER), lambda said: ("number", bool(said[0]), said[1])),
)

# ---- filters: a comparison is ("compare", column, sign, literal); at most 256 of them, and 64 NOTs and parentheses open


def comparisons_in(tree):
    if tree is None:
        return []
    return [tree] if tree[0] == "compare" else [found for part in tree[1:] for found in comparisons_in(part)]


def joined(text, at, opens, before, word, part):
    ways, last = [], part(text, at, opens, before)
    while last:
        ways = ways + last
        last = [
            (end, (word, tree, further))
            for (place, tree) in last
            for (after, _) in keyword(word)(text, place)
            for (end, further) in part(text, after, opens, before + len(comparisons_in(tree)))
        ]
    return ways


def disjunction(text, at, opens, before):
    return joined(text, at, opens, before, "or", conjunction)


def conjunction(text, at, opens, before):
    return joined(text, at, opens, before, "and", unary)


def unary(text, at, opens, before):
    ways = []
    if opens > 0:
        for after, _ in keyword("not")(text, at):
            ways += [(end, ("not", tree)) for (end, tree) in unary(text, after, opens - 1, before)]
        for after, _ in symbol("(")(text, at):
            for close, tree in disjunction(text, after, opens - 1, before):
                ways += [(end, tree) for (end, _) in symbol(")")(text, close)]
    if before < 256:
        comparison = sequence(FILTER_COLUMN, COMPARISON, LITERAL)
        ways += says(comparison, lambda said: ("compare",) + said)(text, at)
    else:
        text.fails_at(text.token(at).start)
    return ways


def FILTER(text, at):
    return disjunction(text, at, 64, 0)


# ---- statements


TUPLE = in_parentheses()
TYPE = choice(*(says(exactly(name), lambda _, name=name: name) for name in ("UInt64", "Int64", "String")))
KEY = choice(says(sequence(exactly("tuple"), TUPLE), lambda _: []), says(WORD, lambda word: [word]), NAMES)
DIVIDED = sequence(exactly("intDiv"), in_parentheses(WORD, symbol(","), NUMBER))
PARTITION_RULE = choice(
    says(sequence(exactly("tuple"), TUPLE), lambda _: None),
    says(WORD, lambda column: (column, 1)),
    says(DIVIDED, lambda said: (said[1][0], said[1][2])),
)


def settings(text, at):
    """SETTINGS and one or two settings, each at most once."""
    ways = []

    def further(place, have):
        for name in ("index_granularity", "replicated_deduplication_window"):
            if name not in have:
                for end, said in sequence(exactly(name), symbol("="), NUMBER)(text, place):
                    more = {**have, name: said[2]}
                    ways.append((end, more))
                    for after, _ in symbol(",")(text, end) if len(more) < 2 else []:
                        further(after, more)

    for place, _ in keyword("settings")(text, at):
        further(place, {})
    return ways


def create_of(said):
    table, (columns,), rule, key, setting = said[2], said[3], said[8], said[11], said[12] or {}
    granularity, window = setting.get("index_granularity", 8192), setting.get("replicated_deduplication_window", 100)
    return ("create", table, columns, rule, key, granularity, window)


CREATE = says(
    sequence(
        keyword("create"), keyword("table"), WORD, in_parentheses(listed(sequence(WORD, TYPE))),
        keyword("engine"), symbol("="), exactly("ReplicatedMergeTree"),
        maybe(in_parentheses(maybe(sequence(TEXT, symbol(","), TEXT)))),
        maybe(only(sequence(keyword("partition"), keyword("by"), PARTITION_RULE), 2)),
        keyword("order"), keyword("by"), KEY, maybe(settings),
    ),
    create_of,
)  # fmt: skip


def data(text, at):
    """What comes after FORMAT CSV: from the next line on, up to a line that is `;`, or to the end."""
    script, start = text.script, text.run_of(b" \t\r", at)
    if start == len(script):
        return [(start, b"")]
    if script[start] != ord("\n"):
        return text.fails_at(start)
    start += 1
    line = start
    while line < len(script):
        end = script.find(b"\n", line)
        if script[line : len(script) if end < 0 else end] in (b";", b";\r"):
            return [(line, script[start:line])]
        if end < 0:
            break
        line = end + 1
    return [(len(script), script[start:])]


ROW = only(in_parentheses(listed(LITERAL)), 0)
ROWS = says(sequence(ROW, times(only(sequence(maybe(symbol(",")), ROW), 1))), lambda said: [said[0]] + said[1])
OFFERED = choice(
    says(sequence(keyword("values"), ROWS), lambda said: ("values", said[1])),
    says(sequence(keyword("format"), keyword("csv"), data), lambda said: ("csv", said[2])),
)
INTO = sequence(keyword("insert"), keyword("into"), maybe(keyword("table")), WORD, maybe(NAMES))
INSERT = says(sequence(INTO, OFFERED), lambda said: ("insert", said[0][3], said[0][4], said[1]))


def setting_of(name):
    """SETTINGS and this one, which says its number."""
    return only(sequence(keyword("settings"), exactly(name), symbol("="), NUMBER), 3)


QUORUM_INSERT = says(
    sequence(INTO, setting_of("insert_quorum"), OFFERED),
    lambda said: ("quorum_insert", said[0][3], said[0][4], said[2], said[1]),
)


def aggregate(name):
    return says(sequence(keyword(name), in_parentheses(WORD)), lambda said: (name, said[1][0]))


ITEM = choice(
    says(sequence(keyword("count"), in_parentheses(maybe(symbol("*")))), lambda said: ("count", None)),
    aggregate("sum"), aggregate("min"), aggregate("max"),
    says(WORD, lambda word: ("column", word)),
)  # fmt: skip
PLAIN_SELECT = says(
    sequence(
        keyword("select"), choice(says(symbol("*"), lambda _: []), listed(ITEM)), keyword("from"), WORD,
        maybe(only(sequence(keyword("where"), FILTER), 1)),
        maybe(only(sequence(keyword("group"), keyword("by"), listed(WORD)), 2)),
    ),
    lambda said: {"table": said[3], "items": said[1], "filter": said[4], "group": said[5] or []},
)  # fmt: skip
SELECT = says(
    sequence(PLAIN_SELECT, maybe(keyword("sync"))), lambda said: ("select", said[0]["table"], said[0], bool(said[1]))
)
SEQUENTIAL_SELECT = says(
    sequence(PLAIN_SELECT, setting_of("select_sequential_consistency")),
    lambda said: ("sequential_select", said[0]["table"], said[0], said[1]),
)
INDEXES = sequence(exactly("indexes"), symbol("="), number_of(1, 1))
EXPLAIN = says(
    sequence(keyword("explain"), maybe(INDEXES), PLAIN_SELECT), lambda said: ("explain", said[2]["table"], said[2])
)

SIGN = token(lambda t: t.value if t.kind == "symbol" and t.value in ("+", "-") else None)
RIGHT = choice(
    LITERAL,
    says(WORD, lambda column: ("column", column)),
    says(sequence(WORD, SIGN, NUMBER), lambda said: (said[1], said[0], ("number", False, said[2]))),
)
SET = says(sequence(WORD, symbol("="), RIGHT), lambda said: (said[0], said[2]))
PARTITION = choice(
    says(NUMBER, lambda number: ("number", number)),
    says(sequence(exactly("tuple"), TUPLE), lambda _: ("tuple", None)),
    says(sequence(keyword("id"), TEXT), lambda said: ("id", said[1])),
)
CHANGE = choice(
    says(
        sequence(keyword("update"), listed(SET), keyword("where"), FILTER),
        lambda said: ("alter", said[1], said[3]),
    ),
    says(sequence(keyword("delete"), keyword("where"), FILTER), lambda said: ("alter", None, said[2])),
    says(sequence(keyword("drop"), keyword("partition"), PARTITION), lambda said: ("drop", said[2])),
)
ALTER = says(
    sequence(keyword("alter"), keyword("table"), WORD, CHANGE), lambda said: said[3][:1] + said[2:3] + said[3][1:]
)


def words(text):
    return sequence(*(keyword(word) for word in text.split()))


def over_table(how, text, *rules):
    """An act of these words, a table and what comes after it."""
    return says(sequence(words(text), WORD, *rules), lambda said: (how,) + said[1:])


def over_replica(how, word):
    return says(sequence(keyword(word), WORD), lambda said: (how, said[1]))


PARTITION_FINAL = only(sequence(maybe(only(sequence(keyword("partition"), PARTITION), 1)), keyword("final")), 0)
ACT = choice(
    INSERT, QUORUM_INSERT, SELECT, SEQUENTIAL_SELECT, EXPLAIN, ALTER,
    over_table("optimize", "optimize table", PARTITION_FINAL),
    over_table("show", "show parts from"), over_table("wait", "wait mutation", NUMBER),
    over_table("sync", "system sync replica"), over_table("restart", "system restart replica"),
    over_table("check", "check table"),
    over_table("stop_fetches", "system stop fetches"), over_table("start_fetches", "system start fetches"),
)  # fmt: skip
REPLICA = maybe(only(sequence(symbol("@"), WORD), 1))
RUN = says(
    sequence(keyword("run"), WORD, NUMBER, keyword("seed"), NUMBER), lambda said: ("run", said[1], said[2], said[4])
)


def sent(act):
    """An act that is sent to a replica."""
    return says(sequence(REPLICA, act), lambda said: ("at",) + said)


LANE = only(sequence(keyword("lane"), END, times(only(sequence(sent(choice(INSERT, SELECT, ALTER)), END), 0))), 2)
LANES = says(
    sequence(keyword("lanes"), END, LANE, times(LANE, 7), keyword("end")), lambda said: ("lanes", [said[2]] + said[3])
)
LATER = choice(CREATE, sent(ACT), over_replica("kill", "kill"), over_replica("start", "restart"), RUN, LANES)
REPLICAS = says(sequence(keyword("replicas"), number_of(1, 8)), lambda said: ("replicas", said[1]))

# whole statements with their ends; for the `;` of REPLICAS the script's end doesn't stand
LATER_WHOLE = sequence(LATER, END)
FIRST_WHOLE = choice(sequence(REPLICAS, symbol(";")), LATER_WHOLE)


# ---- values and records


def number_value(kind, minus, size):
    if kind == "UInt64":
        return size if size < 2**64 and not minus else None
    value = -size if minus else size
    return value if -(2**63) <= value < 2**63 else None


def literal_value(kind, literal):
    if literal[0] == "text":
        return literal[1] if kind == "String" and len(literal[1]) <= 65535 else None
    return None if kind == "String" else number_value(kind, literal[1], literal[2])


def field_value(kind, field):
    if kind == "String":
        return field if len(field) <= 65535 else None
    minus = kind == "Int64" and field.startswith(b"-")
    digits = field[1:] if minus else field
    if not 1 <= len(digits) <= 39 or any(byte not in DIGITS for byte in digits):
        return None
    return number_value(kind, minus, int(digits))


def records_of(bytes_):
    """CSV as the crate csv reads it by default: fields between `,`, lines that end with LF, CR or both, blank ones
    skipped, quotes doubled within quotes."""
    if bytes_.startswith(b"\xef\xbb\xbf"):
        bytes_ = bytes_[3:]
    records, at = [], 0
    while at < len(bytes_):
        if bytes_[at] in b"\r\n":
            at += 1
            continue
        record = []
        while True:
            field, at = field_from(bytes_, at)
            record.append(field)
            if bytes_[at : at + 1] != b",":
                break
            at += 1
        records.append(record)
        at += 1
    return records


def field_from(bytes_, at):
    field = bytearray()
    if bytes_[at : at + 1] == b'"':
        at += 1
        while at < len(bytes_):
            if bytes_.startswith(b'""', at):
                field.append(34)
                at += 2
            elif bytes_[at] == 34:
                at += 1
                break
            else:
                field.append(bytes_[at])
                at += 1
    while at < len(bytes_) and bytes_[at] not in b",\r\n":
        field.append(bytes_[at])
        at += 1
    return bytes(field), at


def printed_record(row):
    fields = [value if isinstance(value, bytes) else str(value).encode() for value in row]
    return b",".join(printed_field(field, len(fields) == 1) for field in fields)


def printed_field(field, is_alone):
    if (is_alone and not field) or any(byte in b',"\r\n' for byte in field):
        return b'"' + field.replace(b'"', b'""') + b'"'
    return field


# ---- playing


def first_double(names):
    return next((name for place, name in enumerate(names) if name in names[place + 1 :]), None)


def check_names(known, lists):
    for names in lists:
        for name in names:
            if name not in known:
                raise Refusal(5, "UnknownColumn", name)
    for names in lists:
        if first_double(names) is not None:
            raise Refusal(20, "DoubleColumn", first_double(names))


def check_setting(name, number, highest):
    if number > highest:
        raise Refusal(6, "WrongType", name)


def rows_of(table, columns, offered, quorum):
    columns = [name for name, _ in table.columns] if columns is None else columns
    check_names(table.kinds, [columns])
    check_setting("insert_quorum", quorum, 2**32 - 1)
    how, records = offered if offered[0] == "values" else ("csv", records_of(offered[1]))
    rows = []
    for place, record in enumerate(records):
        values = {}
        for name, field in zip(columns, record):
            kind = table.kinds[name]
            values[name] = literal_value(kind, field) if how == "values" else field_value(kind, field)
        if len(record) != len(columns) or None in values.values():
            raise Refusal(7, "BadRow", place + 1)
        rows.append([values.get(name, b"" if kind == "String" else 0) for name, kind in table.columns])
    return rows


COMPARES = {
    "=": lambda a, b: a == b, "!=": lambda a, b: a != b, "<": lambda a, b: a < b,
    "<=": lambda a, b: a <= b, ">": lambda a, b: a > b, ">=": lambda a, b: a >= b,
}  # fmt: skip


def check_columns(table, names):
    for name in names:
        if name not in table.kinds:
            raise Refusal(5, "UnknownColumn", name)


def check_literals(table, filter):
    for _, name, _, literal in comparisons_in(filter):
        if literal_value(table.kinds[name], literal) is None:
            raise Refusal(6, "WrongType", name)


def keeps(table, row, tree):
    """Whether a filter keeps a row."""
    if tree is None:
        return True
    if tree[0] == "not":
        return not keeps(table, row, tree[1])
    if tree[0] == "and":
        return keeps(table, row, tree[1]) and keeps(table, row, tree[2])
    if tree[0] == "or":
        return keeps(table, row, tree[1]) or keeps(table, row, tree[2])
    _, name, sign, literal = tree
    return COMPARES[sign](table.value(row, name), literal_value(table.kinds[name], literal))


class Command:
    """A command that was checked against its table: the sets of an UPDATE, or None for a DELETE, and the filter."""

    def __init__(self, table, sets, filter):
        self.table, self.sets, self.filter = table, sets, filter
        lefts = [left for left, _ in sets or []]
        for left, right in sets or []:
            check_columns(table, [left] + ([right[1]] if right[0] in ("column", "+", "-") else []))
        check_columns(table, [comparison[1] for comparison in comparisons_in(filter)])
        if first_double(lefts) is not None:
            raise Refusal(20, "DoubleColumn", first_double(lefts))
        for left, right in sets or []:
            if not self.may_set(table.kinds[left], right):
                raise Refusal(6, "WrongType", left)
        check_literals(table, filter)
        for left in lefts:
            if left in table.key or (table.rule is not None and left == table.rule[0]):
                raise Refusal(8, "KeyColumn", left)

    def may_set(self, kind, right):
        """Whether a column of this type may be set so: to a value of the type, to a column of it, or to such a column
        plus or minus such a number."""
        if right[0] in ("text", "number"):
            return literal_value(kind, right) is not None
        if self.table.kinds[right[1]] != kind:
            return False
        return right[0] == "column" or literal_value(kind, right[2]) is not None and kind != "String"

    def changed(self, row):
        """The row after the command; None where it is deleted."""
        if not keeps(self.table, row, self.filter):
            return row
        if self.sets is None:
            return None
        values = {left: self.right_value(row, self.table.kinds[left], right) for left, right in self.sets}
        return [values.get(name, self.table.value(row, name)) for name, _ in self.table.columns]

    def right_value(self, row, kind, right):
        if right[0] in ("text", "number"):
            return literal_value(kind, right)
        value = self.table.value(row, right[1])
        if right[0] == "column":
            return value
        by, least = literal_value(kind, right[2]), 0 if kind == "UInt64" else -(2**63)
        return (value + (by if right[0] == "+" else -by) - least) % 2**64 + least


class Query:
    """A query that was checked against its table."""

    def __init__(self, table, said):
        self.table, self.filter, self.group = table, said["filter"], said["group"]
        self.items = said["items"] or [("column", name) for name, _ in table.columns]
        self.is_grouping = bool(self.group) or any(how != "column" for how, _ in self.items)
        named = [name for _, name in said["items"] if name is not None]
        check_columns(table, named + [comparison[1] for comparison in comparisons_in(self.filter)] + self.group)
        for how, name in self.items:
            if how == "sum" and table.kinds[name] == "String":
                raise Refusal(6, "WrongType", name)
            if how == "column" and self.is_grouping and name not in self.group:
                raise Refusal(6, "WrongType", name)
        check_literals(table, self.filter)

    def cell(self, how, name, rows):
        if how == "count":
            return len(rows)
        values = [self.table.value(row, name) for row in rows]
        if how == "sum":
            return sum(values)
        if not values:
            return b"" if self.table.kinds[name] == "String" else 0
        return max(values) if how == "max" else min(values)

    def answer(self, rows):
        rows = [row for row in rows if keeps(self.table, row, self.filter)]
        if not self.is_grouping:
            return sorted([self.table.value(row, name) for _, name in self.items] for row in rows)
        groups = {} if self.group else {(): []}
        for row in rows:
            groups.setdefault(tuple(self.table.value(row, name) for name in self.group), []).append(row)
        return sorted([self.cell(how, name, group) for how, name in self.items] for group in groups.values())

    def granules(self, rows):
        """How many granules of a part the filter chooses, and how many there are."""
        table = self.table
        marks = table.in_key_order(rows)[:: table.granularity]
        if not table.key:
            return len(marks), len(marks)
        marks = [table.value(row, table.key[0]) for row in marks]
        low, high = self.bounds(self.filter)
        chosen = [
            place
            for place, mark in enumerate(marks)
            if (not high or mark <= min(high)) and (not low or place + 1 == len(marks) or marks[place + 1] >= max(low))
        ]
        return len(chosen), len(marks)

    def bounds(self, tree):
        """What the terms that AND joins at the top require of the first key column."""
        if tree is not None and tree[0] == "and":
            first, second = self.bounds(tree[1]), self.bounds(tree[2])
            return first[0] + second[0], first[1] + second[1]
        if tree is None or tree[0] != "compare" or tree[1] != self.table.key[0]:
            return [], []
        bound = [literal_value(self.table.kinds[tree[1]], tree[3])]
        return (bound if tree[2] in ("=", ">", ">=") else []), (bound if tree[2] in ("=", "<", "<=") else [])


def partition_of(table, word):
    """The partition that a word says: its number, or None where the table has no rule."""
    how, value = word
    if table.rule is None and (how == "tuple" or (how, value) == ("id", b"all")):
        return None
    if how == "id" and 1 <= len(value) <= 20 and all(byte in DIGITS for byte in value) and value == b"%d" % int(value):
        how, value = "number", int(value)
    if table.rule is None or how != "number" or value >= 2**64:
        raise Refusal(6, "WrongType", "partition")
    return value


class World:
    def __init__(self):
        self.replicas, self.down, self.tables, self.lines, self.refused = 2, set(), {}, [], 0

    def take(self, statement):
        """Plays a statement, or says why it isn't played."""
        try:
            if isinstance(statement, Refusal):
                raise statement
            self.play(statement)
        except Refusal as refusal:
            self.lines.append(refusal.line)
            self.refused += 1

    def code(self):
        return 2 if self.refused else 0

    def play(self, statement):
        """A statement and what it says; an act is sent to a replica."""
        if statement[0] == "replicas":
            self.replicas = statement[1]
            self.lines.append(b"ok")
        elif statement[0] == "at":
            _, replica, (how, table, *said) = statement
            getattr(self, how)(self.table(table), self.replica(replica), *said)
        else:
            getattr(self, statement[0])(*statement[1:])

    def create(self, name, columns, rule, key, granularity, window):
        if name in self.tables:
            raise Refusal(3, "TableExists", name)
        names = [column for column, _ in columns]
        check_names(names, [names, [] if rule is None else [rule[0]], key])
        if rule is not None and (dict(columns)[rule[0]] != "UInt64" or not 1 <= rule[1] < 2**64):
            raise Refusal(6, "WrongType", rule[0])
        if not 1 <= granularity <= 65536:
            raise Refusal(6, "WrongType", "index_granularity")
        if window > 100000:
            raise Refusal(6, "WrongType", "replicated_deduplication_window")
        if len(self.tables) == 4:
            raise Refusal(18, "LimitReached", "tables", 4)
        if len(columns) > 64:
            raise Refusal(18, "LimitReached", "columns", 64)
        self.tables[name] = self.new_table(columns, rule, key, granularity, window, self.replicas, self.down)
        self.lines.append(b"ok")

    def new_table(self, *said):
        return cluster.Table(*said)

    def table(self, name):
        if name not in self.tables:
            raise Refusal(2, "UnknownTable", name)
        return self.tables[name]

    def replica(self, name):
        """The place of a replica; without a name it is the first."""
        replicas = [cluster.replica_text(at) for at in range(self.replicas)]
        if name is not None and name not in replicas:
            raise Refusal(4, "UnknownReplica", name)
        return 0 if name is None else replicas.index(name)

    def check_up(self, at):
        if at in self.down:
            raise Refusal(9, "ReplicaDown", cluster.replica_text(at))

    def check_fetches(self, table, at):
        """For a statement that brings its replica up to date."""
        self.check_up(at)
        if at in table.stopped:
            raise Refusal(11, "FetchesStopped", cluster.replica_text(at))

    # ---- acts, at a replica of a table, which is looked at once what the act says of the table was checked

    def insert(self, table, at, columns, offered):
        self.quorum_insert(table, at, columns, offered, 0)

    def quorum_insert(self, table, at, columns, offered, quorum):
        rows = rows_of(table, columns, offered, quorum)
        self.check_up(at)
        if not rows:
            self.lines.append(b"nothing")
        for partition, block in table.split(rows):
            self.lines.append(table.insert(at, partition, block, quorum))

    def select(self, table, at, said, is_sync):
        query = Query(table, said)
        if is_sync:
            self.check_fetches(table, at)
            table.drain(at)
            rows = table.synced_rows(at)
            assert sorted(rows) == sorted(table.plain_rows()), "the parts hold other rows than the accepted blocks"
            self.answer(query, rows)
        else:
            self.check_up(at)
            self.answer_of(query, table.read(at))

    def sequential_select(self, table, at, said, setting):
        query = Query(table, said)
        check_setting("select_sequential_consistency", setting, 1)
        self.check_up(at)
        self.answer_of(query, table.read_in_quorum(at) if setting == 1 else table.read(at))

    def answer_of(self, query, parts):
        """The names of parts, and the answer to a query over them."""
        self.names_of(parts)
        self.answer(query, [row for _, part in parts for row in part.rows])

    def answer(self, query, rows):
        answer = query.answer(rows)
        self.lines += [b"rows %d" % len(answer)] + [printed_record(row) for row in answer]

    def names_of(self, parts):
        self.lines.append(b" ".join([b"parts"] + [cluster.text(name) for name, _ in parts]))

    def explain(self, table, at, said):
        query, total_chosen, total = Query(table, said), 0, 0
        self.check_up(at)
        for name, part in table.read(at):
            chosen, count = query.granules(part.rows)
            self.lines.append(b"granules %s %d/%d" % (cluster.text(name), chosen, count))
            total_chosen, total = total_chosen + chosen, total + count
        self.lines.append(b"granules total %d/%d" % (total_chosen, total))

    def show(self, table, at):
        self.check_up(at)
        self.names_of(table.read(at))

    def check(self, table, at):
        self.check_up(at)
        parts = table.read(at)
        for name, part in parts:
            digest = hashlib.sha256(table.part_bytes(part.rows)).hexdigest()
            self.lines.append(b"check %s %s" % (cluster.text(name), digest.encode()))
        if not parts:
            self.lines.append(b"nothing")

    def alter(self, table, at, sets, filter):
        command = Command(table, sets, filter)
        self.check_up(at)
        self.lines.append(b"mutation %010d" % table.alter(command))

    def drop(self, table, at, word):
        partition = partition_of(table, word)
        self.check_up(at)
        below = table.drop(at, partition)
        self.lines.append(b"dropped %s below %d" % (cluster.partition_text(partition), below))

    def optimize(self, table, at, word):
        partitions = None if word is None else [partition_of(table, word)]
        self.check_fetches(table, at)
        table.drain(at)
        names = [name for name in cluster.live(table.log) if partitions is None or name.partition in partitions]
        if not names:
            self.lines.append(b"nothing")
        for partition in sorted(set(name.partition for name in names)):
            sources = [name for name in names if name.partition == partition]
            if len(sources) > 1:
                table.merge(at, sources)
                table.drain(at)
            (name,) = [name for name in cluster.live(table.log) if name.partition == partition]
            self.lines.append(b"optimized " + cluster.text(name))

    def wait(self, table, at, id_):
        """Brings each part to the mutation, the first one first."""
        self.check_fetches(table, at)
        mutations = [place for place, entry in enumerate(table.log) if isinstance(entry, cluster.Mutation)]
        if id_ >= len(mutations):
            raise Refusal(17, "UnknownMutation", id_)
        table.drain(at)
        next_ = cluster.next_to_mutate(table.log, mutations[id_] + 1)
        while next_ is not None:
            table.mutate(at, *next_)
            table.drain(at)
            next_ = cluster.next_to_mutate(table.log, mutations[id_] + 1)
        self.lines.append(b"done %010d" % id_)

    def sync(self, table, at):
        self.check_fetches(table, at)
        table.drain(at)
        self.lines.append(b"ok")

    def restart(self, table, at):
        self.check_up(at)
        table.restart(at)
        self.lines.append(b"ok")

    def stop_fetches(self, table, at):
        self.check_up(at)
        table.stopped.add(at)
        self.lines.append(b"ok")

    def start_fetches(self, table, at):
        self.check_up(at)
        table.stopped.discard(at)
        self.lines.append(b"ok")

    # ---- what is sent to no replica

    def kill(self, name):
        at = self.replica(name)
        self.check_up(at)
        self.down.add(at)
        self.lines.append(b"ok")

    def start(self, name):
        """Brings a replica up again, in every table."""
        at = self.replica(name)
        if at not in self.down:
            raise Refusal(10, "ReplicaUp", name)
        self.down.remove(at)
        for table in self.tables.values():
            table.restart(at)
        self.lines.append(b"ok")

    def run(self, name, turns, seed):
        table = self.table(name)
        if turns > 1000000 or seed >= 2**31:
            raise Refusal(6, "WrongType", "RUN")
        for _ in table.run(turns, cluster.Draws(seed)):
            pass
        self.lines.append(b"ran %d" % turns)

    # ---- lanes

    def lanes(self, lanes):
        """The statements of each lane, one lane after the other. One that is refused is refused by itself."""
        for number, statements in enumerate(lanes, 1):
            self.lines.append(b"lane %d" % number)
            for statement in statements:
                self.take(statement)
        self.lines.append(b"end")


def statements_in(script):
    """The statements of a script, each with the place of its first token, and in place of one of no form its refusal.
    LANES is one of them."""
    at, statements = 0, FIRST_WHOLE
    while True:
        text = Text(script)
        first = text.token(at)
        if first.kind == "end":
            return
        if first.kind == "symbol" and first.value == ";":
            at, statements = first.end, LATER_WHOLE
            continue
        ways = statements(text, at)
        statements = LATER_WHOLE
        if ways:
            at, (statement, _) = max(ways, key=lambda way: way[0])
            yield first.start, statement
        else:
            end = script.find(b";", text.furthest)
            at = len(script) if end < 0 else end + 1
            yield first.start, Refusal(1, "Syntax", text.furthest)


def played(script):
    """What is written, and the code."""
    world = World()
    for _, statement in statements_in(script):
        world.take(statement)
    return b"".join(line + b"\n" for line in world.lines), world.code()


if __name__ == "__main__":
    output, code = played(sys.stdin.buffer.read())
    sys.stdout.buffer.write(output)
    sys.exit(code)
