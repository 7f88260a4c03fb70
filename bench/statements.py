"""Random statements of SQL of the one shape that `query --sql` reads, for `sql`, and near misses of them.

A statement is its parts, so that near misses may lack one; `tokens` has its texts in order, and `written` puts blanks,
ends of lines and comments between them."""
import copy
import fractions
import math
import re

from stars import COLUMNS, DIMENSIONS, GREATEST, LINE_COLUMNS, NUMBER_COLUMNS, Stars

ADDED = [["lo_revenue"], ["lo_quantity"], ["lo_extendedprice"], ["lo_supplycost"], ["lo_revenue", "-", "lo_supplycost"],
         ["lo_extendedprice", "*", "lo_discount"], ["lo_discount", "*", "lo_extendedprice"]]
COUNT = ["count", "(", "*", ")"]
AGGREGATES = [[word, "(", *added, ")"] for word in ("sum", "sum", "avg") for added in ADDED]
AGGREGATES += [COUNT, COUNT, COUNT, ["nullif", "(", *COUNT, ",", "0", ")"]]
COMPARISONS = ["=", "<>", "!=", "<", "<=", ">", ">="]
TABLE_NAMES = {"L": ["l", "lo", "Fact"], "C": ["c", "buyer"], "S": ["s", "seller"], "P": ["p", "t_2"], "D": ["d"]}
NAMES = ["revenue", "profit", "lines", "total", "n", "x1", "_a", "Umsatz", "pieces", "Total_2", "q" * 63]
LIMITS = ["0", "1", "2", "3", "10", "1000", str(GREATEST)]
OR_VALUES = [1, 2, 2, 3, 5]

# What near misses have in the place of something, or besides.
WORDS = ("select from where group by order limit and or in between as on join inner asc desc sum count avg min max "
         "distinct having left outer not like is null union all offset nullif case").split()
MARKS = ["(", ")", ",", ";", "*", "-", "+", "/", "=", "<", "<=", ">", ">=", "<>", "!=", "||", ".", "?", '"x"', "`x`"]
OTHER_COLUMNS = ["c_name", "c_custkey", "s_suppkey", "p_partkey", "d_datekey", "p_size", "p_color", "d_date", "d_month",
                 "lo_orderkey", "lo_tax", "lo_shipmode", "lo_orderdate", "lo_custkey", "lo_revenue", "lo_supplycost",
                 "lo_quantity", "lo_discount", "lo_extendedprice", "l.lo_revenue", "d.d_year", "date.d_year",
                 "lineorder.lo_quantity", "customer.d_year", "c.c_city"]
ODD_VALUES = ["'.'", "'A.'", "'A..Z'", "''", "' '", "'ASIA '", "'asia'", "'it''s'", "'x", f"'{'y' * 65}'", "'1993'",
              "4294967295", "4294967296", "1.5", "-1", "1e3", "0x10", "01993", "NULL", "199301", "0"]
TOKEN = re.compile(r"""(?P<gap>\s+|--[^\n]*|/\*.*?\*/)|[A-Za-z_]\w*(?:\.\w+)?|\d+|'(?:[^']|'')*'|"C"|[<>!]=|<>|.""", re.S)
AVERAGE = "ten_thousandths"     # what peers have in the place of avg: the average rounded to so many, a whole number


def quoted(text):
    return "'" + text.replace("'", "''") + "'"


def is_number(column):
    return column in NUMBER_COLUMNS or column in LINE_COLUMNS


class Statement:
    """The parts of a statement, each a list of tokens."""

    def __init__(self, items, tables, joins, tests, groups, having, order, limit):
        self.items, self.tables, self.joins, self.tests = items, tables, joins, tests
        self.groups, self.having, self.order, self.limit = groups, having, order, limit
        self.is_ended = False

    def tokens(self):
        parts = ["select", *parted(self.items, ","), "from", *parted(self.tables, ",")]
        conditions = self.joins + self.tests
        if conditions:
            parts += ["where", *parted(conditions, "and")]
        if self.groups:
            parts += ["group", "by", *parted(self.groups, ",")]
        if self.having:
            parts += ["having", *parted(self.having, "and")]
        if self.order:
            parts += ["order", "by", *parted(self.order, ",")]
        if self.limit is not None:
            parts += ["limit", self.limit]
        return parts + [";"] * self.is_ended


def parted(lists, mark):
    return [token for number, tokens in enumerate(lists) for token in [mark] * (number > 0) + tokens]


class Statements:
    """Random statements over the values of some tables, from a source of random numbers."""

    def __init__(self, tables, random, most_rows):
        self.stars, self.random, self.most_rows = Stars(tables, random), random, most_rows
        self.tables_of, self.others = {}, {}        # of a statement, by the first letter of their columns

    def chance(self, share):
        return self.random.random() < share

    def statement(self):
        """One that is read."""
        self.name_tables()
        groups = self.stars.groups(self.most_rows)
        items, heads = self.items(groups)
        tests, tested = self.tests()
        used = {name[0] for name in groups + tested if name[0] != "L"}
        used |= {kind for kind in DIMENSIONS if self.chance(0.15)}
        tables, joins = self.tables(sorted(used))
        conditions = joins + tests
        self.random.shuffle(conditions)
        grouped = [[self.column(name)] for name in groups]
        limit = self.random.choice(LIMITS) if self.chance(0.3) else None
        order = self.order(groups, heads, len(items))
        having = [self.group_test() for _ in range(self.random.choice([0, 0, 0, 1, 1, 2]))]
        made = Statement(items, tables, [], conditions, grouped, having, order, limit)
        made.is_ended = self.chance(0.4)
        return made

    # ---- its parts ----

    def name_tables(self):
        """The tables, and the other names of some of them."""
        self.tables_of = {kind: table for kind, (table, _, _) in DIMENSIONS.items()}
        self.tables_of |= {"L": "lineorder", "D": self.random.choice(["date", "dwdate"])}
        self.others = {kind: self.random.choice(TABLE_NAMES[kind]) for kind in TABLE_NAMES if self.chance(0.2)}

    def table(self, kind):
        """A table as FROM has it."""
        name = [self.others[kind]] if kind in self.others else []
        return [self.tables_of[kind]] + (["as"] + name if name and self.chance(0.5) else name)

    def column(self, name):
        kind, name = name[0].upper(), name.lower()
        table = self.others.get(kind, self.tables_of[kind])
        return f"{table}.{name}" if self.chance(0.5 if kind in self.others else 0.12) else name

    def items(self, groups):
        """What is printed, and the heads that are names."""
        heads, taken = [], set()

        def named(share):
            if not self.chance(share):
                return []
            heads.append(self.random.choice([name for name in NAMES if name not in heads]))
            return ["as"] * self.chance(0.7) + [heads[-1]]

        shown = [[self.column(name)] + named(0.2) for name in groups if self.chance(0.85)]
        for _ in range(self.random.choice([0, 1, 1, 1, 2, 2, 3, 5]) or (0 if shown else 1)):
            aggregate = self.random.choice(AGGREGATES)
            own = "count" if "count" in aggregate else str(sorted(aggregate))       # its head where it has no name
            name = named(1 if own in taken else 0.6)
            taken |= set() if name else {own}
            shown.append(self.computed(aggregate) + name)
        self.random.shuffle(shown)
        return shown, heads

    def computed(self, aggregate):
        return [self.column(token) if token[:3] == "lo_" else token for token in aggregate]

    def group_test(self):
        """An aggregate, compared with a number that some groups have more than."""
        aggregate = self.random.choice(AGGREGATES)
        most = 2 if "count" in aggregate else self.random.choice([2, 4, 7, 9, 11])
        number = self.random.choice([0, 1, self.random.randint(0, 10**most), self.random.randint(0, 10**most)])
        sign = ["-"] if self.chance(0.1) else []
        return [*self.computed(aggregate), self.random.choice(COMPARISONS), *sign, str(number)]

    def join(self, kind):
        _, key, line_key = DIMENSIONS[kind]
        keys = [self.column(key), self.column(line_key)]
        self.random.shuffle(keys)
        return [keys[0], "=", keys[1]]

    def tables(self, kinds):
        """The tables, parted by commas or joined, and the joins that are conditions."""
        self.random.shuffle(kinds)
        listed = [kind for kind in kinds if self.chance(0.5)]
        joined = [kind for kind in kinds if kind not in listed]
        chain = self.table("L")
        if joined and self.chance(0.3):             # the lines are joined with a dimension
            first = joined.pop()
            chain = self.table(first) + self.joining("L", first)
        for kind in joined:
            chain += self.joining(kind, kind)
        tables = [self.table(kind) for kind in listed]
        tables.insert(self.random.randint(0, len(tables)), chain)
        return tables, [self.join(kind) for kind in listed]

    def joining(self, joined, kind):
        return ["inner"] * self.chance(0.3) + ["join", *self.table(joined), "on", *self.join(kind)]

    def order(self, groups, heads, shown):
        keys = []
        for _ in range(self.random.choice([0, 0, 1, 1, 2, 3])):
            if self.chance(0.2):
                key = self.computed(self.random.choice(AGGREGATES))
            elif self.chance(0.2) or not groups:
                key = [str(self.random.randint(1, shown))]
            elif heads and self.chance(0.5):
                key = [self.random.choice(heads)]
            else:
                name = self.random.choice(groups)
                key = [self.column(name)] + self.by_bytes(name)
            keys.append(key + self.random.choice([[], ["asc"], ["desc"]]))
        return keys

    def by_bytes(self, name):
        return ["collate", '"C"'] if not is_number(name) and self.chance(0.2) else []

    # ---- its conditions ----

    def tests(self):
        """Conditions, and the columns of dimensions that they test."""
        tested = self.random.sample(list(COLUMNS), self.random.choice([0, 1, 1, 2, 2, 3]))
        tests = []
        for name in tested + [name for name in LINE_COLUMNS if self.chance(0.3)]:
            tests += self.tests_of(name)
        return tests, tested

    def tests_of(self, name):
        """One to three conditions of a column, which may leave nothing."""
        if name in LINE_COLUMNS:
            tests = [self.line_values(name)] if self.chance(0.4) else self.ends(name)
            if self.chance(0.1):
                return [self.other_than(name, [self.least(name)])]
        else:
            tests = [self.values(name)] if self.chance(0.6) else self.ends(name)
            if self.chance(0.3):
                kept = tests if self.chance(0.5) else []
                return kept + [self.left_out(name) for _ in range(self.random.choice([1, 1, 2]))]
        if self.chance(0.25):
            tests += self.ends(name) if self.chance(0.5) or name in LINE_COLUMNS else [self.values(name)]
        return tests

    def tested(self, name):
        return [self.column(name), *self.by_bytes(name)]

    def least(self, name):
        """The least or the greatest number that a line has."""
        return str(self.random.choice([LINE_COLUMNS[name], 0 if name == "LO_DISCOUNT" else 1]))

    def value(self, name):
        if name in LINE_COLUMNS:
            return self.random.choice([*range(LINE_COLUMNS[name] + 2), 99, GREATEST])
        value = self.stars.value(name)
        if name in NUMBER_COLUMNS:
            return int(value)
        return "A" if value.endswith(".") else value        # star could not spell a range behind it

    def literal(self, name, value):
        if not is_number(name):
            return quoted(value)
        return f"00{value}" if self.chance(0.03) else str(value)

    def one_of(self, name, values):
        literals = [self.literal(name, value) for value in values]
        if len(values) == 1 and self.chance(0.7):
            return [*self.tested(name), "=", literals[0]]
        if self.chance(0.4):
            return ["(", *parted([[self.column(name), "=", literal] for literal in literals], "or"), ")"]
        return [*self.tested(name), "in", "(", *parted([[literal] for literal in literals], ","), ")"]

    def values(self, name):
        values = [self.value(name) for _ in range(self.random.choice([1, 1, 2, 2, 3, 5, 12]))]
        return self.one_of(name, values)

    def other_than(self, name, literals):
        """Each of these is left out."""
        if len(literals) == 1 and self.chance(0.6):
            return [*self.tested(name), self.random.choice(["<>", "!="]), literals[0]]
        return [*self.tested(name), "not", "in", "(", *parted([[literal] for literal in literals], ","), ")"]

    def left_out(self, name):
        values = [self.value(name) for _ in range(self.random.choice([1, 1, 2, 3, 6]))]
        return self.other_than(name, [self.literal(name, value) for value in values])

    def line_values(self, name):
        """Numbers with no other between them: those of a line are tested by a range."""
        first = self.random.randint(0, LINE_COLUMNS[name])
        values = list(range(first, first + self.random.choice(OR_VALUES)))
        self.random.shuffle(values)
        return self.one_of(name, values + values[:self.random.choice([0, 0, 1])])

    def range_of(self, name):
        """Two ends, some of them turned round."""
        ends = [self.value(name), self.value(name)]
        if not is_number(name) and self.chance(0.4):
            ends = [end[:self.random.randint(0, len(end))].rstrip() for end in ends]
        if self.chance(0.85):
            ends.sort(key=None if is_number(name) else str.encode)
        return [self.literal(name, end) for end in ends]

    def ends(self, name):
        """One condition or two, of texts with both ends."""
        first, last = self.range_of(name)
        if self.chance(0.4):
            return [[*self.tested(name), "between", first, "and", last]]
        marks = [">=", "<="]
        if is_number(name):
            marks = [self.random.choice([">=", ">"]), self.random.choice(["<=", "<"])]
        pair = [[*self.tested(name), mark, end] for mark, end in zip(marks, [first, last])]
        if is_number(name) and self.chance(0.5):
            return [self.random.choice(pair)]
        return pair

    # ---- its text ----

    def in_case(self, token):
        if token[0] in "'\"" or not token[0].isalpha() or self.chance(0.3):
            return token
        return self.random.choice([token.upper(), token.lower(), token.title()])

    def gap(self, before, after):
        marks = "(),;=<>!"
        if (before[-1] in marks[:4] or after[0] in marks[:4] or (before[-1] in marks) != (after[0] in marks)) \
                and self.chance(0.5):
            return ""
        return self.random.choice([" "] * 12 + ["\n", "\n  ", "  ", "\t", "\r\n", " /* it's */ ", "/**/", " -- of\n"])

    def written(self, tokens):
        return self.marked(tokens, 0)[0]

    def marked(self, tokens, mark):
        """The text, and how many characters stand before the token of this number."""
        text, before = "", None
        for number, token in enumerate(tokens):
            text += self.gap(text[-1], token) if text else ""
            before = len(text) if number == mark else before
            text += self.in_case(token)
        before = len(text) if before is None else before
        return text + self.random.choice(["", "", "", "\n", " -- end"]), before

    # ---- near misses ----

    def near_miss(self):
        """What is done to a statement, the text, and how many of its characters are as those of a statement."""
        made = self.statement()
        kind = self.random.choice(["a part is left out", "a token", "a token", "a value", "a column", "a character"])
        if kind == "a part is left out":
            return kind, self.written(self.without_part(made).tokens()), 0
        tokens = made.tokens()
        if kind == "a character":
            return kind, self.with_other_character(self.written(tokens)), 0
        return kind, *self.marked(*self.with_other_token(tokens, kind))

    def without_part(self, made):
        made = copy.deepcopy(made)
        parts = [part for part in [made.items, made.tables, made.tests, made.tests, made.groups, made.having, made.order]
                 if part]
        part = self.random.choice(parts)
        place = self.random.randrange(len(part))
        chain = part[place]
        if part is made.tables and "join" in chain and self.chance(0.7):
            if self.chance(0.5):                                # a chain loses its last join
                at = len(chain) - 1 - chain[::-1].index("join")
                del chain[at - (chain[at - 1] == "inner"):]
            else:                                               # or what it is joined by
                del chain[-4:]
        else:
            del part[place]
        return made

    def with_other_token(self, tokens, kind):
        """The tokens, and the number of the first that is changed."""
        tokens = list(tokens)
        places = [place for place, token in enumerate(tokens) if kind == "a token"
                  or (kind == "a value" and (token[0] == "'" or token.isdigit()))
                  or (kind == "a column" and "_" in token and token[0] != "'")]
        place = self.random.choice(places or range(len(tokens)))
        columns = [name.lower() for name in COLUMNS] + OTHER_COLUMNS
        pools = [WORDS, MARKS, columns, NAMES, tokens, ["lineorder", "customer", "date", "orders"]]
        pool = {"a value": ODD_VALUES, "a column": columns}.get(kind) or self.random.choice(pools)
        change = self.random.randrange(5) if kind == "a token" else 0
        if change == 0:
            tokens[place] = self.random.choice(pool)
        elif change == 1:
            tokens.insert(place, self.random.choice(pool))
        elif change == 2:
            del tokens[place]
        elif change == 3:
            tokens.insert(place, tokens[place])
        else:
            tokens[place - 1], tokens[place] = tokens[place], tokens[place - 1]
            place = max(0, place - 1)
        return tokens, place - (tokens[:place][-1:] == ["collate"])     # which is one token with the "C" behind it

    def with_other_character(self, text):
        place, change = self.random.randrange(len(text)), self.random.randrange(4)
        other = self.random.choice("'\"();,.*-=<>_ \n%\\é0aZ")
        if change == 0:
            return text[:place] + other + text[place + 1:]
        if change == 1:
            return text[:place] + other + text[place:]
        return text[:place] + text[place + 1:] if change == 2 else text[:place]


# ---- texts that are read ----

def tokens_of(text):
    return [match for match in TOKEN.finditer(text) if not match["gap"]]


def ended(text):
    """With its semicolon."""
    return text if tokens_of(text)[-1][0] == ";" else f"{text}\n;"


def ordered(text):
    """With all group columns as further keys of its order."""
    tokens = tokens_of(text)
    words = [match[0].upper() for match in tokens]
    if "GROUP" not in words:
        return text
    end = next((place for place, word in enumerate(words) if word in ("LIMIT", ";")), len(words))
    is_ordered = "ORDER" in words
    stop = next((place for place, word in enumerate(words) if word in ("HAVING", "ORDER")), end)
    grouped = words[words.index("GROUP") + 2:stop]
    keys = ", ".join(word for word in grouped if word != ",")
    place = tokens[end - 1].end()
    return f"{text[:place]}{',' if is_ordered else ' ORDER BY'} {keys} {text[place:]}"


def averaged(text):
    """The text for peers, with whole numbers in the place of averages; and the columns that are averages."""
    tokens = tokens_of(text)
    words = [match[0].upper() for match in tokens]
    parts, at = [], 0
    for place, match in enumerate(tokens):
        if words[place] == "AVG" and words[place + 1:place + 2] == ["("]:
            parts += [text[at:match.start()], AVERAGE]
            at = match.end()
        elif match[0].isdigit() and "HAVING" in words[:place] and is_of_average(words[:place]):
            parts += [text[at:match.end()], " * 10000"]
            at = match.end()
    heads = words[:words.index("FROM")] if "FROM" in words else []
    depth, columns, column = 0, set(), 0
    for place, word in enumerate(heads):
        depth += (word == "(") - (word == ")")
        column += word == "," and depth == 0
        columns |= {column} if word == "AVG" else set()
    return "".join(parts) + text[at:], columns


def is_of_average(words):
    """Whether behind these words the number of a test of an average stands."""
    while words and words[-1] in COMPARISONS + ["-"]:
        words = words[:-1]
    opened = len(words) - 1 - words[::-1].index("(") if words[-1:] == [")"] and "(" in words else 0
    return words[opened - 1:opened] == ["AVG"]


def average_of(total, lines):
    """The average in ten-thousandths, halves away from 0, by exact fractions; none of no lines."""
    if not lines:
        return None
    share = fractions.Fraction(abs(total), lines) * 10000
    whole = math.floor(share + fractions.Fraction(1, 2))
    return -whole if total < 0 else whole


def average_text(count):
    """Ten-thousandths as a report has them."""
    sign = "-" if count < 0 else ""
    return f"{sign}{abs(count) // 10000}.{abs(count) % 10000:04}"
