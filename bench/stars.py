"""Star questions, for `star` and for the random traffic: random ones, and the SQL of one.

The systems with five tables are asked by the statement of `query --explain --sql`. For ClickHouse's wide table, and for
the judge of `soak`, which needs none of our program, the SQL is made from the constants of a question alone, by what
docs/FORMATS.md says that they spell."""
import subprocess

from common import LIVE

GREATEST = 2**32 - 1
MOST_GROUPS, MOST_VALUES, MOST_CONSTANTS, MOST_BYTES = 4, 16, 64, 64
ORDER = "ORDER=SUM"

# Values that hardly any row has.
ODD_TEXTS = ["ATLANTIS", "", "mfgr#1", "MFGR#1=", "a=b", ".", "it's", "Überlänge ✓", "\\", "x" * 64]
ODD_NUMBERS = ["0", "7", "01993", str(GREATEST), "0000000000000199401"]

# The columns that a question may group by and test, each with the kind of its values in `traffic.Tables`.
COLUMNS = {
    "C_CITY": "city", "C_NATION": "nation", "C_REGION": "region", "C_MKTSEGMENT": "segment", "S_CITY": "city", "S_NATION": "nation",
    "S_REGION": "region", "P_MFGR": "maker", "P_CATEGORY": "category", "P_BRAND1": "brand", "D_YEAR": "year",
    "D_YEARMONTHNUM": "month", "D_YEARMONTH": "month_name", "D_WEEKNUMINYEAR": "week", "D_DATEKEY": "day",
    "D_DAYOFWEEK": "day_name", "D_MONTH": "month_word", "D_SELLINGSEASON": "season", "D_HOLIDAYFL": "holiday"}
NUMBER_COLUMNS = {"D_DATEKEY", "D_YEAR", "D_YEARMONTHNUM", "D_WEEKNUMINYEAR"}
LINE_COLUMNS = {"LO_QUANTITY": 50, "LO_DISCOUNT": 10}       # with the greatest value of a line
MEASURES = ["LO_REVENUE", "LO_REVENUE-LO_SUPPLYCOST", "LO_EXTENDEDPRICE*LO_DISCOUNT", "LO_QUANTITY", "LO_EXTENDEDPRICE",
            "LO_SUPPLYCOST", "COUNT"]

# By the first letter of a column: its table, the key there, and the key in a line.
DIMENSIONS = {"C": ("customer", "c_custkey", "lo_custkey"), "S": ("supplier", "s_suppkey", "lo_suppkey"),
              "P": ("part", "p_partkey", "lo_partkey"), "D": ("dwdate", "d_datekey", "lo_orderdate")}

# The thirteen with the benchmark's constants, as star questions.
THIRTEEN = {
    "Q1.1": "LO_EXTENDEDPRICE*LO_DISCOUNT|D_YEAR=1993|LO_DISCOUNT=1..3|LO_QUANTITY=0..24",
    "Q1.2": "LO_EXTENDEDPRICE*LO_DISCOUNT|D_YEARMONTHNUM=199401|LO_DISCOUNT=4..6|LO_QUANTITY=26..35",
    "Q1.3": "LO_EXTENDEDPRICE*LO_DISCOUNT|D_WEEKNUMINYEAR=6|D_YEAR=1994|LO_DISCOUNT=5..7|LO_QUANTITY=26..35",
    "Q2.1": "LO_REVENUE|D_YEAR|P_BRAND1|P_CATEGORY=MFGR#12|S_REGION=AMERICA",
    "Q2.2": "LO_REVENUE|D_YEAR|P_BRAND1|P_BRAND1=MFGR#2221..MFGR#2228|S_REGION=ASIA",
    "Q2.3": "LO_REVENUE|D_YEAR|P_BRAND1|P_BRAND1=MFGR#2239|S_REGION=EUROPE",
    "Q3.1": "LO_REVENUE|C_NATION|S_NATION|D_YEAR|C_REGION=ASIA|S_REGION=ASIA|D_YEAR=1992..1997|ORDER=SUM",
    "Q3.2": "LO_REVENUE|C_CITY|S_CITY|D_YEAR|C_NATION=UNITED STATES|S_NATION=UNITED STATES|D_YEAR=1992..1997|ORDER=SUM",
    "Q3.3": "LO_REVENUE|C_CITY|S_CITY|D_YEAR|C_CITY=UNITED KI1|C_CITY=UNITED KI5|S_CITY=UNITED KI1|S_CITY=UNITED KI5|"
            "D_YEAR=1992..1997|ORDER=SUM",
    "Q3.4": "LO_REVENUE|C_CITY|S_CITY|D_YEAR|C_CITY=UNITED KI1|C_CITY=UNITED KI5|S_CITY=UNITED KI1|S_CITY=UNITED KI5|"
            "D_YEARMONTH=Dec1997|ORDER=SUM",
    "Q4.1": "LO_REVENUE-LO_SUPPLYCOST|D_YEAR|C_NATION|C_REGION=AMERICA|S_REGION=AMERICA|P_MFGR=MFGR#1|P_MFGR=MFGR#2",
    "Q4.2": "LO_REVENUE-LO_SUPPLYCOST|D_YEAR|S_NATION|P_CATEGORY|C_REGION=AMERICA|S_REGION=AMERICA|P_MFGR=MFGR#1|"
            "P_MFGR=MFGR#2|D_YEAR=1997|D_YEAR=1998",
    "Q4.3": "LO_REVENUE-LO_SUPPLYCOST|D_YEAR|S_CITY|P_BRAND1|C_REGION=AMERICA|S_NATION=UNITED STATES|D_YEAR=1997|"
            "D_YEAR=1998|P_CATEGORY=MFGR#14"}


# ---- random questions ----

class Stars:
    """Random star questions over the values of some tables, from a source of random numbers."""

    def __init__(self, tables, random):
        self.values, self.random = tables.values, random

    def chance(self, share):
        return self.random.random() < share

    def constants(self, most_rows=None):
        """The constants of a question, with at most so many rows, if that is told."""
        tests = []
        for column in self.random.sample(list(COLUMNS), self.random.choice([0, 1, 1, 2, 2, 3, 4])):
            tests += self.tests(column)
        tests += [self.line_test(column) for column in LINE_COLUMNS if self.chance(0.25)]
        self.random.shuffle(tests)
        order = [ORDER] if self.chance(0.4) else []
        head = [self.random.choice(MEASURES), *self.groups(most_rows)]
        return [*head, *tests[:MOST_CONSTANTS - len(head) - len(order)], *order]

    def groups(self, most_rows):
        count = self.random.randint(0, MOST_GROUPS)
        while True:
            groups = self.random.sample(list(COLUMNS), count)
            if not most_rows or self.most_rows(groups) <= most_rows:
                return groups

    def most_rows(self, groups):
        product = 1
        for column in groups:
            product *= len(self.values[COLUMNS[column]])
        return product

    def tests(self, column):
        if self.chance(0.35):
            return [f"{column}={self.range_of(column)}"]
        count = self.random.choice([1, 1, 1, 2, 2, 3, 5, MOST_VALUES])
        values = [self.value(column) for _ in range(count)]
        if count > 1 and self.chance(0.2):
            values[0] = values[1]
        mark = "!=" if self.chance(0.3) else "="
        return [f"{column}{mark}{value}" for value in values]

    def range_of(self, column):
        """Most ranges hold something; some are turned round, and some begin or end with no value that is there."""
        is_number = column in NUMBER_COLUMNS
        ends = [self.value(column), self.value(column)]
        if not is_number and self.chance(0.4):
            ends = [end[:self.random.randint(0, len(end))].rstrip() for end in ends]
        if self.chance(0.85):
            ends.sort(key=int if is_number else str.encode)
        # Behind a first end of `.` the marks stand one place earlier, and the last end begins with a point.
        first, _, last = "..".join(ends).partition("..")
        return f"{first}..{last[:MOST_BYTES]}"

    def value(self, column):
        if not self.chance(0.06):
            return self.random.choice(self.values[COLUMNS[column]])
        if column in NUMBER_COLUMNS:
            return self.random.choice(ODD_NUMBERS)
        return self.random.choice(ODD_TEXTS)

    def line_test(self, column):
        def number():
            if self.chance(0.05):
                return self.random.choice([GREATEST, 99])
            return self.random.randint(0, LINE_COLUMNS[column])

        if self.chance(0.3):
            return f"{column}={number()}"
        ends = [number(), number()]
        if self.chance(0.85):
            ends.sort()
        return f"{column}={ends[0]}..{ends[1]}"


# ---- what a question asks ----

class Star:
    """What the constants of a question spell."""

    def __init__(self, constants):
        self.measure, *rest = constants
        self.by_sum = rest[-1:] == [ORDER]
        self.groups, self.one_of, self.none_of, self.ranges = [], {}, {}, {}
        for constant in rest[:-1] if self.by_sum else rest:
            name, is_test, value = constant.partition("=")
            first, is_range, last = value.partition("..")
            if not is_test:
                self.groups.append(name)
            elif name.endswith("!"):
                self.none_of.setdefault(name[:-1], []).append(value)
            elif is_range or name in LINE_COLUMNS:
                self.ranges[name] = first, last if is_range else first
            else:
                self.one_of.setdefault(name, []).append(value)

    def tests(self, kind, quoted):
        """The SQL of the tests of a dimension, or of the lines (`L`)."""
        def literal(name, text):
            return str(int(text)) if name in NUMBER_COLUMNS or name in LINE_COLUMNS else quoted(text)

        tests = []
        for name, values in self.one_of.items():
            if name[0] == kind:
                tests.append(f"{name.lower()} IN ({', '.join(literal(name, value) for value in values)})")
        for name, values in self.none_of.items():
            if name[0] == kind:
                tests.append(f"{name.lower()} NOT IN ({', '.join(literal(name, value) for value in values)})")
        for name, (first, last) in self.ranges.items():
            if name[0] == kind:
                column = name.lower()
                tests.append(f"{column} >= {literal(name, first)} AND {column} <= {literal(name, last)}")
        return tests

    def group_columns(self, kind):
        return [name.lower() for name in self.groups if name[0] == kind]

    def ending(self):
        """The grouping and the order, behind the tests."""
        groups = [name.lower() for name in self.groups]
        if not groups:
            return ""
        return f" GROUP BY {', '.join(groups)} ORDER BY {', '.join(['total DESC'] * self.by_sum + groups)}"

    def selected(self, total):
        return ", ".join([name.lower() for name in self.groups] + [f"{total} AS total"])


def where(tests):
    return f" WHERE {' AND '.join(tests)}" if tests else ""


def doubled(text):
    return "'" + text.replace("'", "''") + "'"


def escaped(text):
    return "'" + text.replace("\\", "\\\\").replace("'", "\\'") + "'"


def judged_sql_of(constants):
    """For SQLite, from the constants alone."""
    star = Star(constants)
    tests, tables = star.tests("L", doubled), "lineorder"
    for kind, (table, key, line_key) in DIMENSIONS.items():
        own = star.tests(kind, doubled)
        if own or star.group_columns(kind):
            tables += f" JOIN {table} ON {line_key} = {key}"
            tests += own
    total = "count(*)" if star.measure == "COUNT" else f"sum({star.measure.lower()})"
    if star.measure == "COUNT" and not star.groups:
        total = "nullif(count(*), 0)"
    return f"SELECT {star.selected(total)} FROM {tables}{where(tests)}{star.ending()};"


def total_of_clickhouse(star):
    total = {"COUNT": "count()", "LO_REVENUE-LO_SUPPLYCOST": "sum(toInt64(lo_revenue) - toInt64(lo_supplycost))"}.get(
        star.measure, f"sum({star.measure.lower()})")
    return total if star.groups else f"if(count() = 0, NULL, {total})"


def clickhouse_flat_sql_of(constants):
    """For ClickHouse's wide table."""
    star = Star(constants)
    tests = [test for kind in ["L", *DIMENSIONS] for test in star.tests(kind, escaped)]
    return f"SELECT {star.selected(total_of_clickhouse(star))} FROM lineorder_flat{where(tests)}{star.ending()}"


def explained(name, constants, *words):
    """What `query --explain` writes of a question."""
    asked = [LIVE, "query", "--explain", *words, "--", name, *constants]
    return subprocess.run(asked, check=True, stdout=subprocess.PIPE, text=True).stdout


# The peers of five tables, as `--sql` names them.
SYSTEMS = {"sqlite": "sqlite", "pg": "postgresql", "clickhouse": "clickhouse"}


def sql_of(peer, name, constants):
    """The statement of a question for a peer; for the wide table, of `star` alone."""
    if peer == "clickhouse-flat":
        return clickhouse_flat_sql_of(constants)
    return explained(name, constants, "--sql", SYSTEMS[peer])


def answers(data, questions, script):
    """The rows of each question, as our program has them; the script is left with the questions."""
    script.write_text("".join(f"{record}\n" for question in questions for record in question.records()), encoding="utf-8")
    report = subprocess.run([LIVE, "run", "--data", data, "--quiet", script], check=True, stdout=subprocess.PIPE)
    lines = iter(report.stdout.decode().split("\n")[1:])
    return [[next(lines) for _ in range(int(next(lines).rpartition(" rows ")[2]))] for _ in questions]
