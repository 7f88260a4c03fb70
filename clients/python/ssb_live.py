"""A client of `ssb_live serve`, over its two named pipes.

    import ssb_live

    with ssb_live.connect("in-1", "out-1") as live:
        for nation, year, revenue in live.ask("star", "LO_REVENUE", "C_NATION", "D_YEAR", "C_REGION=ASIA"):
            print(nation, year, revenue)
        first, second = live.ask_together(["Q1.1", ("Q2.1", "MFGR#12", "AMERICA")])
        assert first.at == second.at                # both are of one moment
        top = live.ask_sql("SELECT d_year, sum(lo_revenue) AS revenue, count(*) FROM lineorder JOIN date "
                           "ON lo_orderdate = d_datekey GROUP BY d_year ORDER BY revenue DESC LIMIT 3")
        lines = live.order(7)                       # of the order with this key, as it is
        regions = live.values("C_REGION")           # the values that customers have there
        with live.refresh() as refresh:             # committed at the end of the block, or Refused
            refresh.withdraw(7)
        print("commit", refresh.committed)

No call waits longer than the connection's `timeout`. What goes wrong is an exception:

    Error
      InterfaceError          the client is used in a wrong way: no pipe, a pair in use, a connection that is closed
      DatabaseError
        ProgrammingError      a question or a refresh that cannot be sent as it is
          Misfit              .. as a value does not fit its place:
            WrongType         it has another type; this is a TypeError too
            WrongValue        there is none such; this is a ValueError too
          Fault               .. or that the server found a fault in: nothing was done
        IntegrityError
          Refused             a refresh that was refused: nothing was changed
        OperationalError
          ReadOnly            the server takes no refreshes, and this was one: nothing was done
          Unserved            the server lacked memory for it: nothing was done
          Ended               the server ended the session, or died; the connection is closed
          TimedOut            there was no reply in time; the connection is closed

One file, over the standard library of Python 3.8 or later. It is tested (tests.py), not proved.
"""
import collections.abc
import contextlib
import errno
import fcntl
import functools
import itertools
import json
import math
import operator
import os
import re
import secrets
import select
import stat
import threading
import time
import warnings

threadsafety = 2            # threads may share a connection: it has one request under way, and the others wait
TIMEOUT = 60.0              # seconds
MOST_BYTES = 1 << 20        # of a request
TICK = 0.002                # seconds between two looks for a server that opens its end
PART = 1 << 16              # bytes that are read at once: as many as a pipe holds
UNKNOWN, ITS_FAULT = b"x\n", b"fault: 70 BadLine 1\n"
READ_ONLY = b"fault: 68 ReadOnly\n"
ASKED = 64                  # requests of the greeting of a server that takes no refreshes
GREETING = 8192             # bytes that the replies to a greeting have at most
MOST_TOLD = 30              # values of a column that a warning tells
MOST_DIGITS, MOST_TEXT = 20, 64         # of a number; bytes of a text
MOST_SHOWN, FEW = 100, 3    # letters of a value, and names, in an error
MOST_TOGETHER = 16          # questions
# The line before rows, lines of an order, or what is looked up.
HEAD = re.compile(rb"(?:\S+(?: \d+)? at \d+ (?:rows|lines)|(?:columns|status|values \S+) rows) (\d+)(?: of \d+)?")

LINEORDER = ("LO_ORDERKEY", "LO_LINENUMBER", "LO_CUSTKEY", "LO_PARTKEY", "LO_SUPPKEY", "LO_ORDERDATE",
             "LO_ORDERPRIORITY", "LO_SHIPPRIORITY", "LO_QUANTITY", "LO_EXTENDEDPRICE", "LO_ORDTOTALPRICE",
             "LO_DISCOUNT", "LO_REVENUE", "LO_SUPPLYCOST", "LO_TAX", "LO_COMMITDATE", "LO_SHIPMODE")
TEXTS = {"LO_ORDERPRIORITY", "LO_SHIPMODE"}
TEXT_OR_NUMBER = "LO_SHIPPRIORITY"      # a text, which is 0 in the benchmark
MEASURES = ("LO_REVENUE", "LO_REVENUE-LO_SUPPLYCOST", "LO_EXTENDEDPRICE*LO_DISCOUNT", "LO_QUANTITY",
            "LO_EXTENDEDPRICE", "LO_SUPPLYCOST", "COUNT")
NUMBERS = {"D_DATEKEY", "D_YEAR", "D_YEARMONTHNUM", "D_WEEKNUMINYEAR", "LO_DISCOUNT", *MEASURES}
GROUPS = ("C_CITY", "C_NATION", "C_REGION", "C_MKTSEGMENT", "S_CITY", "S_NATION", "S_REGION", "P_MFGR",
          "P_CATEGORY", "P_BRAND1", "D_DATEKEY", "D_DAYOFWEEK", "D_MONTH", "D_YEAR", "D_YEARMONTHNUM", "D_YEARMONTH",
          "D_WEEKNUMINYEAR", "D_SELLINGSEASON", "D_HOLIDAYFL")
TESTS = ("LO_QUANTITY", "LO_DISCOUNT")      # columns of tests that are no groups
# The columns that causes of refusals are about, and the causes 3 and 4 of a fault 73.
KEYS = {42: "LO_CUSTKEY", 43: "LO_SUPPKEY", 44: "LO_PARTKEY", 45: "LO_ORDERDATE",
        **dict.fromkeys((41, 47, 48), "LO_ORDERKEY")}
OF_ORDERS = {"3": "LO_ORDERKEY", "4": "LO_LINENUMBER"}
# The constants of the thirteen: the column that each is a value of, or an end of a range of.
LINE_RANGES = ("LO_DISCOUNT from", "LO_DISCOUNT to", "LO_QUANTITY from", "LO_QUANTITY to")
CITIES, YEARS = ("C_CITY", "C_CITY", "S_CITY", "S_CITY"), ("D_YEAR from", "D_YEAR to")
CONSTANTS = {
    "Q1.1": ("D_YEAR", *LINE_RANGES), "Q1.2": ("D_YEARMONTHNUM", *LINE_RANGES),
    "Q1.3": ("D_WEEKNUMINYEAR", "D_YEAR", *LINE_RANGES), "Q2.1": ("P_CATEGORY", "S_REGION"),
    "Q2.2": ("P_BRAND1 from", "P_BRAND1 to", "S_REGION"), "Q2.3": ("P_BRAND1", "S_REGION"),
    "Q3.1": ("C_REGION", "S_REGION", *YEARS), "Q3.2": ("C_NATION", "S_NATION", *YEARS),
    "Q3.3": (*CITIES, *YEARS), "Q3.4": (*CITIES, "D_YEARMONTH"),
    "Q4.1": ("C_REGION", "S_REGION", "P_MFGR", "P_MFGR"),
    "Q4.2": ("C_REGION", "S_REGION", "P_MFGR", "P_MFGR", "D_YEAR", "D_YEAR"),
    "Q4.3": ("C_REGION", "S_NATION", "D_YEAR", "D_YEAR", "P_CATEGORY")}
# The printed columns of the thirteen; those of star stand in its constants.
COLUMNS = {
    "Q1": ("LO_EXTENDEDPRICE*LO_DISCOUNT",), "Q2": ("LO_REVENUE", "D_YEAR", "P_BRAND1"),
    "Q3.1": ("C_NATION", "S_NATION", "D_YEAR", "LO_REVENUE"), "Q3": ("C_CITY", "S_CITY", "D_YEAR", "LO_REVENUE"),
    "Q4.1": ("D_YEAR", "C_NATION", "LO_REVENUE-LO_SUPPLYCOST"),
    "Q4.2": ("D_YEAR", "S_NATION", "P_CATEGORY", "LO_REVENUE-LO_SUPPLYCOST"),
    "Q4.3": ("D_YEAR", "S_CITY", "P_BRAND1", "LO_REVENUE-LO_SUPPLYCOST")}


# ---- what goes wrong ----

class Error(Exception):
    """All that this client raises."""


class InterfaceError(Error):
    """The client is used in a wrong way."""


class NoPandas(InterfaceError, ImportError):
    """pandas is not installed."""


class DatabaseError(Error):
    """What comes of the server, or of what it is sent."""


class ProgrammingError(DatabaseError):
    """A question or a refresh that cannot be sent as it is."""


class Misfit(ProgrammingError):
    """A value does not fit its place: it is `value`, as it was given, and `column` where its place has one."""

    def __init__(self, told, column=None, value=None):
        super().__init__(told)
        self.column, self.value = column, value


class WrongType(Misfit, TypeError):
    """A value has another type than its place takes."""


class WrongValue(Misfit, ValueError):
    """A value has the right type, and its place cannot have it; or values are missing, or too many."""


class IntegrityError(DatabaseError):
    """What the orders do not allow."""


class OperationalError(DatabaseError):
    """The server could not do it."""


class Fault(ProgrammingError):
    """The server found a fault in the request, and did nothing: its `number`, and its `text`, as `70 BadLine 1`. Where
    it is told of a record, that is `record`; where it is told of a column, `column` and the `value` that was sent."""

    def __init__(self, text):
        super().__init__(text)
        self.text, self.number = text, int(text.split(" ", 1)[0])
        self.record = self.column = self.value = None

    def __str__(self):
        if self.column:
            return f"{self.text}: {self.column} is {self.value}"
        return self.text if self.record is None else f"{self.text}: {self.record}"

    def look_at(self, records):
        """Takes from the records of the request what the fault is told of."""
        found = re.match(r"7\d \w+ (\d+)(?: (\d+) \w+(?: (\w+))?)?", self.text)
        if not found or not 0 < int(found[1]) <= len(records):
            return
        place, cause, told = int(found[1]) - 1, found[2], found[3]
        self.record = records[place]
        if told in LINEORDER:
            self.column, self.value = told, value_in(self.record, told)
        elif cause in OF_ORDERS:
            self.column = OF_ORDERS[cause]
            self.value = told or " and ".join(values_below(records, place, self.column))


class Refused(IntegrityError):
    """The refresh was refused after `at` commits, for its action `action` (from 1), and changed nothing. The cause has
    a `number` and a `text`, as `47 Absent 77`. If it is about a key, this is of `column`, and one of `values`."""

    def __init__(self, at, action, text):
        super().__init__(f"action {action}: {text}")
        self.at, self.action, self.text, self.number = at, action, text, int(text.split(" ", 1)[0])
        self.column = KEYS.get(self.number)
        self.values = text.split(" ")[2:] if self.column else []

    def __str__(self):
        told = f"action {self.action}: {self.text}"
        return f"{told}: {self.column} is {' or '.join(self.values)}" if self.values else told

    def look_at(self, records):
        """Takes from the records of the request what the refusal is told of."""
        begun = [place for place, record in enumerate(records) if not record.startswith("line|")][1:]
        if self.column and not self.values and self.action < len(begun):
            self.values = values_below(records, begun[self.action - 1], self.column)


def value_in(line, column):
    return line.split("|")[1 + LINEORDER.index(column)]


def values_below(records, place, column):
    """The values that the lines of the order that begins at this place have in a column, each once."""
    lines = itertools.takewhile(lambda record: record.startswith("line|"), records[place + 1:])
    return sorted({value_in(line, column) for line in lines})


class UnknownValue(UserWarning):
    """A question was answered by no rows, or by no sum, and looks for a value that no line has."""


class MoreValues(UserWarning):
    """A column has more values than were listed."""


class ReadOnly(OperationalError):
    """The server takes no refreshes, as its journal could not be written when it started. Nothing was done; the
    connection can be used for questions."""


class Unserved(OperationalError):
    """The server lacked memory for the request, and did nothing; the connection can be used."""


class Ended(OperationalError):
    """The server ended the session, or died. Whether a refresh that was under way was committed is not known."""


class TimedOut(OperationalError):
    """There was no reply in time. Whether a refresh that was under way was committed is not known."""


# ---- questions and their answers ----

class Answer(collections.abc.Sequence):
    """The answer to a question after the first `at` commits: `columns` are the names of its columns, `rows` are tuples
    of numbers and texts. It is the sequence of its rows. A sum of no lines is None."""

    def __init__(self, name, constants, at, columns, rows):
        self.name, self.constants, self.at, self.columns, self.rows = name, constants, at, columns, rows

    def __len__(self):
        return len(self.rows)

    def __getitem__(self, place):
        return self.rows[place]

    def to_pandas(self):
        """The rows as a DataFrame of pandas; NoPandas where that is not installed."""
        try:
            import pandas
        except ModuleNotFoundError as fault:
            raise NoPandas(f"to_pandas needs pandas: {fault}; `rows` has the rows without it") from None
        return pandas.DataFrame(self.rows, columns=list(self.columns))

    def is_empty(self):
        """Whether it has no rows, or is a sum of no lines."""
        return not self.rows or self.rows[0] == (None,)

    def __repr__(self):
        return f"<{self.name} at {self.at}: {len(self.rows)} rows of {', '.join(self.columns)}>"


def columns_of(name, constants=()):
    """The names of the columns that the answer to a question has."""
    if name == "star":
        groups = tuple(it for it in constants[1:] if "=" not in it)
        return (*groups, *constants[:1])
    return COLUMNS.get(name) or COLUMNS.get(name[:2], ())


def tests_of(name, constants):
    """The columns and the values that a question looks for; of a range of star its ends, as they are sent. What star
    excludes is not looked for."""
    if name == "star":
        tests = [tuple(it.split("=", 1)) for it in constants[1:] if "=" in it]
        return [(column, value) for column, value in tests if column in GROUPS]
    return [(column, value) for column, value in zip(CONSTANTS.get(name, ()), constants) if column in GROUPS]


def holds(value, values, column):
    """Whether a column that has these values has the one of a test, or one in its range."""
    first, is_range, last = value.partition("..")
    if not is_range:
        return value in values
    if column in NUMBERS and first.isdigit() and last.isdigit():
        return any(int(first) <= int(it) <= int(last) for it in values)
    return any(first <= it <= last for it in values)


# ---- values as fields of a record ----

def shown(value):
    """A value as errors tell it."""
    text = repr(value)
    return text if len(text) <= MOST_SHOWN else f"{text[:MOST_SHOWN]}.."


def text_of(value, column, place):
    """A text as a field. Errors name it by its place."""
    if not isinstance(value, str):
        raise WrongType(f"{place} is {shown(value)}; a text is wanted", column, value)
    if re.search(r"[|\r\n]", value) or value.endswith(" "):
        wanted = "a text without a bar, an end of a line, or a space at its end"
        raise WrongValue(f"{place} is {shown(value)}; {wanted} is wanted", column, value)
    size = len(value.encode(errors="surrogatepass"))
    if size > MOST_TEXT:
        raise WrongValue(f"{place} has {size:,} bytes; at most {MOST_TEXT} are wanted", column, value)
    return value


def number_of(value, column, place, bits):
    """A whole number of so many bits as a field: one of Python's or of another library's type, or its digits."""
    text = value
    if not isinstance(value, str):
        try:
            text = str(operator.index(None if isinstance(value, bool) else value))
        except TypeError:
            raise WrongType(f"{place} is {shown(value)}; a whole number is wanted", column, value) from None
    if not (text.isascii() and text.isdigit() and len(text) <= MOST_DIGITS and int(text) < 1 << bits):
        raise WrongValue(f"{place} is {shown(value)}; a whole number from 0 to 2^{bits} - 1 is wanted", column, value)
    return text


def line_field(column, value):
    """A value as a field of this column of LINEORDER."""
    if column in TEXTS or column == TEXT_OR_NUMBER and isinstance(value, str):
        return text_of(value, column, column)
    return number_of(value, column, column, 64)


def constant_field(name, number, constant, value):
    """A value as a constant of a question, which has this name and this number among them."""
    column, place = constant.split()[0], f"{name}: constant {number}, {constant},"
    bits = 64 if column == "D_DATEKEY" else 32
    return number_of(value, column, place, bits) if column in NUMBERS else text_of(value, column, place)


def wanted_of_star(number, constant):
    """What is wanted in the place of a constant of star that is none; None where it may be one."""
    column, is_test, value = constant.partition("=")
    if number == 1:
        return None if constant in MEASURES else f"a measure is wanted: {', '.join(MEASURES)}"
    is_excluded = is_test and column.endswith("!") and column[:-1] in GROUPS and ".." not in value
    if column in GROUPS or is_excluded or is_test and column in TESTS or constant == "ORDER=SUM":
        return None
    return ("COLUMN, COLUMN=VALUE, COLUMN!=VALUE, COLUMN=FROM..TO or ORDER=SUM is wanted; a column is "
            f"{', '.join(GROUPS)}, and of a test also {' or '.join(TESTS)}")


def star_field(number, constant):
    """A constant of star as a field: of a test the value, or both ends, are as its column takes them."""
    if not isinstance(constant, str):
        raise WrongType(f"star: constant {number} is {shown(constant)}; a text is wanted", None, constant)
    wanted = wanted_of_star(number, constant)
    if wanted:
        raise WrongValue(f"star: constant {number} is {shown(constant)}; {wanted}", None, constant)
    column, is_test, value = constant.partition("=")
    for end in value.split("..", 1) if is_test and column != "ORDER" else ():
        constant_field("star", number, column.rstrip("!"), end)
    return constant


def star_fields(constants):
    """The constants of star as fields: group columns stand before tests, and ORDER=SUM stands last."""
    fields = tuple(star_field(*it) for it in enumerate(constants or [""], 1))
    kinds = [3 if it == "ORDER=SUM" else 2 if "=" in it else 1 for it in fields]
    for number, (before, kind, it) in enumerate(zip(kinds[1:], kinds[2:], fields[2:]), 3):
        if kind < before or before == 3:
            wanted = "group columns before tests, and ORDER=SUM last, are wanted"
            raise WrongValue(f"star: constant {number} is {shown(it)}; {wanted}", None, it)
    return fields


def question_of(question):
    """The name and the constants of a question, which is a name, or a name with constants."""
    try:
        name, *constants = (question,) if isinstance(question, str) else question
    except (TypeError, ValueError):
        raise WrongType(f"a question is {shown(question)}; a name, or a name with constants, is wanted") from None
    if name == "star":
        return name, star_fields(constants)
    if not isinstance(name, str):
        raise WrongType(f"the name of a question is {shown(name)}; a text is wanted", None, name)
    if name not in CONSTANTS:
        raise WrongValue(f"the name of a question is {shown(name)}; Q1.1 to Q4.3 or star is wanted", None, name)
    named = CONSTANTS[name]
    if constants and len(constants) != len(named):
        raise WrongValue(f"{name} has {len(constants)} of its constants; none, or all {len(named)}, are wanted: "
                         f"{', '.join(named)}")
    return name, tuple(constant_field(name, *it) for it in zip(range(1, len(named) + 1), named, constants))


def record_of(question):
    """The record that asks a question."""
    return "|".join(("query", question[0], *question[1]))


def statement_of(text):
    """A text of SQL as one line: a space stands for each end of a line outside of texts, and for a comment."""
    def plain(found):
        if found[1] and re.search(r"[\r\n]", found[1]):
            raise WrongValue("a text of a statement has an end of a line")
        return found[1] or " "
    return re.sub(r"('[^']*')|--[^\r\n]*|/\*.*?\*/|[\r\n]+", plain, text, flags=re.DOTALL).strip()


def value_of(column, field):
    if column not in NUMBERS:
        return field
    return None if field == "NULL" else int(field)


def line_value_of(column, field):
    return field if column in TEXTS or column == TEXT_OR_NUMBER else int(field)


# ---- replies as they come ----

class Replies:
    """The bytes of so many replies as they come: each is a line, and behind a head with `rows R`, or `lines R`, stand R
    lines more."""

    def __init__(self, count, is_block):
        self.text, self.place, self.is_block = bytearray(), 0, is_block
        self.left, self.rows = count, 0         # replies whose head did not come; rows of the one before that did not

    def take(self, part):
        """Takes what was read; whether the replies are whole."""
        self.text += part
        while (self.rows or self.left) and (self.pass_rows() if self.rows else self.pass_head()):
            pass
        if not (self.rows or self.left) and self.place < len(self.text):
            raise OperationalError(f"not asked for: {bytes(self.text[self.place:self.place + 80])!r}")
        return not (self.rows or self.left)

    def pass_head(self):
        end = self.text.find(b"\n", self.place)
        if end < 0:
            return False
        head, self.place = self.text[self.place:end], end + 1
        found = HEAD.fullmatch(head)
        self.rows = int(found[1]) if found else 0
        self.left = 0 if self.is_block and head.startswith(b"fault: ") else self.left - 1
        return True

    def pass_rows(self):
        """Passes over whole lines, as many as there are of those that are wanted."""
        there = self.text.count(b"\n", self.place)
        if there <= self.rows:
            self.rows, self.place = self.rows - there, self.text.rfind(b"\n") + 1 if there else self.place
            return not self.rows
        rest = self.text[self.place:].split(b"\n", self.rows)[-1]
        self.rows, self.place = 0, len(self.text) - len(rest)
        return True


# ---- a refresh ----

def columns_that_fit(line):
    """The columns of LINEORDER, where those are the names of this line's values."""
    differences = [("lacks", set(LINEORDER) - set(line)), ("has", set(line) - set(LINEORDER))]
    told = [f"{verb} {some_of(names)}" for verb, names in differences if names]
    if told:
        raise WrongValue(f"a line {' and '.join(told)}; the columns of LINEORDER are wanted", None, line)
    return LINEORDER


def some_of(names):
    """The first few of these names, and how many more there are."""
    first, more = sorted(map(str, names))[:FEW], len(names) - FEW
    return ", ".join([*first, f"{more} more"] if more > 0 else first)


class Refresh:
    """Changes of whole orders, which are sent at the end of a `with` block: all are done, or none. Where the block is
    left by an exception, or after `abort`, nothing is sent."""

    def __init__(self, connection):
        self.connection, self.records, self.committed, self.is_aborted = connection, [], None, False

    def add(self, *lines):
        """Adds an order of these lines: each has the seventeen values of LINEORDER, in this order or by their names."""
        self._order("add", lines)

    def amend(self, *lines):
        """Puts an order of these lines in the place of the one with its key."""
        self._order("amend", lines)

    def put(self, *lines):
        """Puts an order of these lines in the place of the one with its key, or adds it where there is none."""
        self._order("put", lines)

    def withdraw(self, key):
        """Removes all lines of the order with this key."""
        self.records.append(f"withdraw|{line_field('LO_ORDERKEY', key)}")

    def abort(self):
        """Drops the refresh."""
        self.is_aborted = True

    def _order(self, word, lines):
        self.records += [word, *map(self._line, lines)]

    @staticmethod
    def _line(line):
        if isinstance(line, collections.abc.Mapping):
            line = [line[column] for column in columns_that_fit(line)]
        if not isinstance(line, collections.abc.Iterable):
            raise WrongType(f"a line is {shown(line)}; its {len(LINEORDER)} values are wanted", None, line)
        values = tuple(line)
        if len(values) != len(LINEORDER):
            raise WrongValue(f"a line has {len(values)} values; {len(LINEORDER)} are wanted", None, line)
        return "line|" + "|".join(map(line_field, LINEORDER, values))

    def __enter__(self):
        return self

    def __exit__(self, kind, *_):
        if kind is None and not self.is_aborted:
            self.committed = self.connection._commit(self.records)


# ---- a connection ----

def seconds_until(deadline):
    """How many seconds are left; at most some days, as the system cannot wait for ever."""
    return max(0, min(deadline - time.monotonic(), 10**6))


def connect(into, out, timeout=TIMEOUT):
    """Connects with a server through a client's two pipes, named as behind its word `--client`. It waits for the server
    to open them, and raises TimedOut where it does not."""
    return Connection(into, out, timeout)


class Connection:
    """A session of a client. Each call returns or raises within `timeout` seconds, which can be set at any time. While
    `warns` is true, as at the beginning, an empty answer to what no line has is followed by a warning."""

    def __init__(self, into, out, timeout=TIMEOUT):
        self.into = self.out = None
        self.paths, self.timeout = (os.fspath(into), os.fspath(out)), timeout
        self._turn, self._seen, self.warns = threading.Lock(), 0, True
        self._connect(time.monotonic() + timeout)

    # what a user calls

    def ask(self, name, *constants):
        """The answer to a question: one of the thirteen, with all its constants or none, or `star` with its own."""
        question = question_of((name, *constants))
        return self._ask([record_of(question)], [question])[0]

    def ask_together(self, questions):
        """The answers to 1 to 16 questions, all after the same commits. Each question is a name, or a name with its
        constants, as ("star", "COUNT", "C_REGION")."""
        if isinstance(questions, str) or not isinstance(questions, collections.abc.Iterable):
            raise WrongType(f"the questions are {shown(questions)}; a list of them is wanted", None, questions)
        questions = list(map(question_of, questions))
        if not 1 <= len(questions) <= MOST_TOGETHER:
            raise WrongValue(f"{len(questions)} questions are asked together; 1 to {MOST_TOGETHER} are wanted")
        return self._ask(["ask", *map(record_of, questions), "answer"], questions)

    def unknown(self, answer):
        """What is told of each value that the question of an answer looks for and no line has, in a text each. The
        values that lines have are asked for, by a question more for each column."""
        return list(self._unknown(answer, time.monotonic() + self.timeout))

    def ask_sql(self, text):
        """The rows of a statement of SQL, under its heads. An average is the text of its digits."""
        if not isinstance(text, str):
            raise WrongType(f"the statement is {shown(text)}; a text is wanted", None, text)
        record = f"sql|{statement_of(text)}"
        return self._request(["format|json", record, "format|report"], 3, self._rows, told_of=[record])

    def order(self, key):
        """The lines of the order with this key as they are then, under the names of LINEORDER: none where it is not
        live. They can be changed and amended."""
        number = line_field("LO_ORDERKEY", key)
        return self._request([f"order|{number}"], 1, functools.partial(self._order, int(number)))

    def columns(self):
        """The columns that questions read, each with its table and what it takes: `number` or `text`."""
        return list(map(tuple, self._look_up("columns")["rows"]))

    def values(self, column):
        """The values that the rows of a dimension have in one of these columns, each once, in order: 10,000 at most.
        Where there are more, a warning tells that."""
        if column not in GROUPS:
            raise WrongValue(f"a column is {shown(column)}; {', '.join(GROUPS)} are wanted", None, column)
        found = self._look_up(f"values|{column}")
        if found["of"] > len(found["rows"]):
            warnings.warn(f"{column} has {found['of']} values, of which these are the first", MoreValues, 2)
        return [row[0] for row in found["rows"]]

    def status(self):
        """What the server has done so far: numbers by their names, as \"commits\" and \"live lines\"."""
        return dict(self._look_up("status")["rows"])

    def refresh(self):
        """A refresh, for a `with` block: it is committed at the block's end, or Refused is raised there."""
        return Refresh(self)

    def exchange(self, request, replies=1):
        """Sends requests, and gives the bytes of so many replies, as they came: what the other calls are made of."""
        return self._exchange(request, replies, bytes)

    def close(self):
        """Ends the session, and waits until the server has ended it too, so that another one can begin."""
        if self.into is None:
            return
        deadline = time.monotonic() + self.timeout
        self._take_turn(deadline)
        try:
            os.close(self.into)
            self.into = None
            with contextlib.suppress(OperationalError):
                while True:
                    self._read(deadline)
        finally:
            self._drop()
            self._turn.release()

    def __enter__(self):
        return self

    def __exit__(self, *_):
        self.close()

    def __del__(self):
        self._drop()

    # requests and their replies

    def _ask(self, records, questions):
        """The answers to questions, which these records ask, and a warning of what they look for that no line has."""
        deadline = time.monotonic() + self.timeout
        answers = self._request(records, len(questions), lambda text: self._answers(questions, text), deadline)
        for answer in answers if self.warns else ():
            for told in self._unknown(answer, deadline) if answer.is_empty() else ():
                warnings.warn(told, UnknownValue, 3)
        return answers

    def _unknown(self, answer, deadline):
        for column, value in tests_of(answer.name, answer.constants):
            asked = ("star", ("COUNT", column))
            read = functools.partial(self._answers, [asked])
            values = [str(row[0]) for row in self._request([record_of(asked)], 1, read, deadline)[0]]
            if not holds(value, values, column):
                told = ": " + ", ".join(values) if len(values) <= MOST_TOLD else ""
                yield f"no line has {column} {value}; its {len(values)} values{told}"

    def _request(self, records, replies, read, deadline=None, told_of=None):
        """Sends the records of a request, and gives what `read` makes of its replies. A fault is told of one of these, or
        of `told_of`."""
        request = "".join(f"{record}\n" for record in records).encode(errors="surrogatepass")
        if len(request) > MOST_BYTES:
            raise ProgrammingError(f"a request has at most {MOST_BYTES:,} bytes, and this one has {len(request):,}")
        try:
            return self._exchange(request, replies, lambda text: read(text.decode(errors="surrogateescape")), deadline)
        except (Fault, Refused) as told:
            told.look_at(told_of or records)
            raise

    def _exchange(self, request, replies, read, deadline=None):
        expected = Replies(replies, request.startswith(b"ask\n"))
        deadline = deadline or time.monotonic() + self.timeout
        self._take_turn(deadline)
        try:
            self._send_and_read(request, expected.take, deadline)
            return read(expected.text)
        finally:
            self._turn.release()

    def _answers(self, questions, text):
        lines = iter(text.split("\n"))
        answers = []
        for name, constants in questions:
            head = next(lines)
            found = re.fullmatch(r"(\S+) at (\d+) rows (\d+)", head)
            if not found or found[1] != name:
                self._raise(head)
            at = self._seen_now(int(found[2]))
            columns = columns_of(name, constants)
            rows = [self._row(columns, next(lines)) for _ in range(int(found[3]))]
            answers.append(Answer(name, constants, at, columns, rows))
        return answers

    def _rows(self, text):
        """The answer to a statement, whose reply is an object of JSON between those to two words."""
        line = text.split("\n")[1]
        with contextlib.suppress(ValueError, AttributeError, KeyError, TypeError):
            reply = json.loads(line)
            if "fault" in reply:
                self._raise(f"fault: {reply['fault']}")
            if "unserved" in reply:
                self._raise(f"sql unserved: {reply['unserved']}")
            rows = list(map(tuple, reply["rows"]))
            return Answer("sql", (), self._seen_now(reply["at"]), tuple(reply["columns"]), rows)
        return self._raise(line)

    def _look_up(self, record):
        """The object of what is looked up by a record."""
        return self._request(["format|json", record, "format|report"], 3, self._found, told_of=[record])

    def _found(self, text):
        line = text.split("\n")[1]
        with contextlib.suppress(ValueError, TypeError):
            reply = json.loads(line)
            if "fault" in reply:
                self._raise(f"fault: {reply['fault']}")
            if "list" in reply:
                return reply
        return self._raise(line)

    def _order(self, key, text):
        """The lines of the order with this key."""
        head, *lines = text.rstrip("\n").split("\n")
        found = re.fullmatch(r"order (\d+) at (\d+) lines (\d+)", head)
        if not found or int(found[1]) != key:
            self._raise(head)
        at = self._seen_now(int(found[2]))
        return Answer("order", (key,), at, LINEORDER, [self._row(LINEORDER, line, line_value_of) for line in lines])

    def _row(self, columns, line, value=value_of):
        fields = line.split("|")
        if len(fields) == len(columns):
            with contextlib.suppress(ValueError):
                return tuple(map(value, columns, fields))
        return self._raise(line)

    def _commit(self, records):
        return self._request(["begin", *records, "commit"], 1, self._receipt)

    def _receipt(self, text):
        reply = text.rstrip("\n")
        found = re.fullmatch(r"committed (\d+)", reply)
        if not found:
            self._raise(reply)
        return self._seen_now(int(found[1]))

    def _seen_now(self, at):
        """After how many commits a reply is: never fewer than this client has seen."""
        if at < self._seen:
            self._drop()
            raise Ended(f"another server is at the pipes: it has {at} commits, and {self._seen} were seen")
        self._seen = at
        return at

    def _raise(self, reply):
        """Raises what a reply says that is no answer and no receipt."""
        fault = re.fullmatch(r"fault: (\d+ .+)", reply)
        if fault:
            raise (ReadOnly if fault[1].startswith("68 ") else Fault)(fault[1])
        refused = re.fullmatch(r"refused at (\d+) action (\d+): (\d+ .+)", reply)
        if refused:
            raise Refused(int(refused[1]), int(refused[2]), refused[3])
        if re.match(r"\S+(?: \d+)? unserved: |refresh: out of memory$", reply):
            raise Unserved(reply)
        self._drop()
        raise OperationalError(f"not a reply of ssb_live: {reply[:80]!r}")

    # pipes

    def _connect(self, deadline):
        """Opens the ends, again where the session before this one ends just then."""
        while True:
            try:
                self._open(deadline)
                return self._greet(deadline)
            except Ended:
                time.sleep(TICK)

    def _open(self, deadline):
        """Opens OUT, which does not wait, and then IN, as soon as the server has opened it."""
        try:
            self.out = self._open_pipe(self.paths[1], os.O_RDONLY)
            try:
                fcntl.flock(self.out, fcntl.LOCK_EX | fcntl.LOCK_NB)
            except BlockingIOError:
                raise InterfaceError(f"{self.paths[1]} is in use by another client") from None
            while self.into is None:
                self.into = self._open_pipe(self.paths[0], os.O_WRONLY)
                if self.into is None:
                    if time.monotonic() > deadline:
                        raise TimedOut(f"no server has opened {self.paths[0]} in {self.timeout} s")
                    time.sleep(TICK)
        except BaseException:
            self._drop()
            raise
        self._reading, self._both = select.poll(), select.poll()
        self._reading.register(self.out, select.POLLIN)
        self._both.register(self.out, select.POLLIN)
        self._both.register(self.into, select.POLLOUT)

    @staticmethod
    def _open_pipe(path, way):
        """An end that never waits; None where it is to be written to and no one reads from it."""
        try:
            end = os.open(path, way | os.O_NONBLOCK)
        except OSError as fault:
            if fault.errno == errno.ENXIO:
                return None
            raise InterfaceError(f"{path}: {fault.strerror}") from None
        if not stat.S_ISFIFO(os.fstat(end).st_mode):
            os.close(end)
            raise InterfaceError(f"{path} is no named pipe")
        return end

    def _greet(self, deadline):
        """Sends a refresh that is always refused, by a key that nobody else can have named. All that comes before its
        refusal was for a client before this one, which may have left the session in mid-request."""
        key = secrets.randbits(63)
        refresh = b"begin\nwithdraw|%d\nwithdraw|%d\ncommit\n" % (key, key)
        reply = rb"(?:refused at \d+ action [12]: 47 Absent %d\n|%s)" % (key, READ_ONLY)
        if self._hear(b"\nabort\n" + refresh, reply, deadline).endswith(READ_ONLY):
            self._greet_by_turns(refresh, reply, deadline)

    def _greet_by_turns(self, refresh, reply, deadline):
        """A server that takes no refreshes names no key: it is sent that refresh, and a line that is no request, in
        turns that nobody else can have sent."""
        turns = [secrets.randbits(1) for _ in range(ASKED)]
        self._hear(b"".join(refresh if turn else UNKNOWN for turn in turns),
                   b"".join(reply if turn else ITS_FAULT for turn in turns), deadline)

    def _hear(self, request, reply, deadline):
        """Sends a request, and reads until what came ends with such a reply, which begins a line; what came."""
        text, wanted = bytearray(), re.compile(rb"(?:^|\n)%s\Z" % reply)

        def is_heard(part):
            text.extend(part)
            return wanted.search(text, max(0, len(text) - GREETING))
        self._send_and_read(request, is_heard, deadline)
        return text

    def _take_turn(self, deadline):
        """Waits for the turn of a request, where other threads have one under way."""
        if not self._turn.acquire(timeout=seconds_until(deadline)):
            raise TimedOut(f"a request of another thread is still under way after {self.timeout} s")
        if self.into is None:
            self._turn.release()
            raise InterfaceError("the connection is closed")

    def _send_and_read(self, request, is_whole, deadline):
        """Sends a request, and reads until `is_whole` says so of what was read; reads while it sends, so that neither
        side waits for the other. Where that does not come to its end, the connection is closed."""
        try:
            left = self._write(memoryview(request))
            while True:
                if left and self._is_ready(deadline, is_sending=True):
                    left = self._write(left)
                elif is_whole(self._read(deadline)):
                    return
        except OSError as fault:
            self._drop()
            raise OperationalError(f"{self.paths[1]}: {fault.strerror}") from None
        except BaseException:
            self._drop()
            raise

    def _write(self, left):
        """Writes what the pipe takes, and gives the rest."""
        try:
            while left:
                left = left[os.write(self.into, left):]
        except BlockingIOError:
            pass
        except BrokenPipeError:
            raise Ended(self._ended()) from None
        return left

    def _read(self, deadline):
        """The next bytes."""
        self._is_ready(deadline)
        part = os.read(self.out, PART)
        if not part:
            raise Ended(self._ended())
        return part

    def _is_ready(self, deadline, is_sending=False):
        """Waits until something can be read, or, while sending, written too; whether it can only be written."""
        waiting, seconds = self._both if is_sending else self._reading, seconds_until(deadline)
        ready = dict(waiting.poll(math.ceil(1000 * seconds))) if seconds else {}
        if not ready:
            raise TimedOut(f"the server has not replied in {self.timeout} s")
        return self.out not in ready

    def _ended(self):
        return f"the server has ended the session at {self.paths[1]}"

    def _drop(self):
        """Closes both ends, at once."""
        for end in (self.into, self.out):
            if end is not None:
                os.close(end)
        self.into = self.out = None
