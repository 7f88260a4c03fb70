"""Judges the reports of a run, for `soak`: by the scripts and the tables alone, without our program.

`read_reports` asks that each request has one reply of its kind, in order, those to the questions of a block all after
the same commits, and that no client goes back. `replay` goes
through the commits by their numbers in a warehouse of its own, SQLite in memory: each commit has to be acceptable after
those before it, each refusal has to be the first cause at its number of commits, and the answers that are picked have
to be SQLite's."""
import re
import sqlite3

from common import HERE, read_queries
from stars import judged_sql_of
from traffic import CONSTANTS, NUMBERS, Block, Question, Withdrawal

COMMITTED = re.compile(r"committed (\d+)")
REFUSED = re.compile(r"refused at (\d+) action (\d+): (.+)")
ANSWERED = re.compile(r"(\S+) at (\d+) rows (\d+)")


class Disagreement(Exception):
    pass


class Reply:
    """What a client was told. `number` is that of its commit, else how many commits the reply stands after."""

    def __init__(self, client, request, number, refusal=None, rows=None):
        self.client, self.request, self.number, self.refusal, self.rows = client, request, number, refusal, rows

    def is_commit(self):
        return self.refusal is None and self.rows is None


# ---- the reports ----

class Lines:
    def __init__(self, text):
        self.lines, self.place = text.split("\n"), 0

    def next(self):
        self.place += 1
        if self.place > len(self.lines):
            raise Disagreement("the report ends early")
        return self.lines[self.place - 1]

    def match(self, *forms):
        line = self.next()
        found = next((match for form in forms if (match := form.fullmatch(line))), None)
        if not found:
            raise Disagreement(f"line {self.place} of the report: {line}")
        return found

    def expect(self, text):
        self.match(re.compile(re.escape(text)))


def read_reply(lines, client, request):
    if isinstance(request, Question):
        name, at, rows = lines.match(ANSWERED).groups()
        if name != request.name:
            raise Disagreement(f"line {lines.place} of the report: {request.name} was asked")
        return Reply(client, request, int(at), rows=[lines.next() for _ in range(int(rows))])
    found = lines.match(COMMITTED, REFUSED)
    if found.re is COMMITTED:
        return Reply(client, request, int(found[1]))
    return Reply(client, request, int(found[1]), refusal=(int(found[2]), found[3]))


def read_replies(lines, client, request):
    """The reply to a request, or to each question of a block, in order."""
    if not isinstance(request, Block):
        return [read_reply(lines, client, request)]
    replies = [read_reply(lines, client, question) for question in request.questions]
    if len({reply.number for reply in replies}) > 1:
        raise Disagreement(f"line {lines.place} of the report: a block is answered after "
                           f"{', '.join(str(reply.number) for reply in replies)} commits")
    return replies


def read_reports(text, scripts):
    """The replies to all requests, and how many commits the run told."""
    lines, replies = Lines(text), []
    for client, script in enumerate(scripts, 1):
        lines.expect(f"client {client}")
        seen = 0
        for request in script:
            for reply in read_replies(lines, client, request):
                if reply.number < seen + reply.is_commit():
                    raise Disagreement(f"line {lines.place} of the report: client {client} had seen {seen} commits")
                seen = reply.number
                replies.append(reply)
    commits = int(lines.match(re.compile(r"commits (\d+)"))[1])
    lines.expect("")
    numbers = sorted(reply.number for reply in replies if reply.is_commit())
    if numbers != list(range(1, commits + 1)):
        raise Disagreement(f"the clients committed {len(numbers)} refreshes, the run {commits}, or a number came twice")
    if any(reply.number > commits for reply in replies):
        raise Disagreement(f"a reply stands after more than {commits} commits")
    return replies, commits


# ---- the same warehouse again ----

SQL_ORDER = {"Q4.2": [0, 1, 4, 5, 2, 3]}       # of a question's constants, where the SQL has them in another


def question_sql():
    """For each query its SQL, with a place for each constant, and the benchmark's constants."""
    queries = read_queries(HERE / "queries.sql")
    queries["Q1.1"] = queries["Q1.1"].replace("lo_quantity < 25", "lo_quantity BETWEEN 0 AND 24")
    literal = re.compile(r"'([^']*)'|\b(\d+)\b")
    for name, sql in queries.items():
        constants = [text or int(number) for text, number in literal.findall(sql)]
        assert len(constants) == len(CONSTANTS[name].split()), name
        queries[name] = literal.sub("?", sql), constants
    return queries


class Warehouse:
    """One thread, and rows in SQLite."""

    def __init__(self, data, tables):
        self.tables = {"Customer": set(tables.customers), "Supplier": set(tables.suppliers), "Part": set(tables.parts),
                       "Date": set(tables.dates)}
        self.live = set(tables.orders)
        self.questions = question_sql()
        self.base = sqlite3.connect(":memory:", isolation_level=None)
        self.base.executescript((HERE / "schema_sqlite.sql").read_text())
        for table in ["customer", "supplier", "part", "date", "lineorder"]:
            with open(data / f"{table}.tbl") as lines:
                rows = (line.rstrip("\n").split("|")[:-1] for line in lines)
                self.insert("dwdate" if table == "date" else table, rows)
        self.base.execute("ANALYZE")

    def insert(self, table, rows):
        width = len(self.base.execute(f"PRAGMA table_info({table})").fetchall())
        self.base.executemany(f"INSERT INTO {table} VALUES ({','.join('?' * width)})", rows)

    def refusal(self, refresh):
        """The number of the first action that is refused and the cause, or None."""
        changed = {}
        for number, action in enumerate(refresh.actions, 1):
            cause = self.cause(action, changed.get(action.key, action.key in self.live))
            if cause:
                return number, cause
            changed[action.key] = not isinstance(action, Withdrawal)
        return None

    def cause(self, action, live):
        if isinstance(action, Withdrawal):
            return None if live else f"47 Absent {action.key}"
        if live and action.word == "add":
            return f"41 Present {action.key}"
        if not live and action.word == "amend":
            return f"48 AmendAbsent {action.key}"
        for number, name, place in [(42, "Customer", 2), (43, "Supplier", 4), (44, "Part", 3), (45, "Date", 5)]:
            if any(line[place] not in self.tables[name] for line in action.lines):
                return f"{number} Unknown{name}"
        return None

    def commit(self, refresh):
        for action in refresh.actions:
            self.base.execute("DELETE FROM lineorder WHERE lo_orderkey = ?", (action.key,))
            if isinstance(action, Withdrawal):
                self.live.discard(action.key)
            else:
                self.live.add(action.key)
                self.insert("lineorder", action.lines)

    def rows(self, question):
        if question.name == "star":
            rows = self.base.execute(judged_sql_of(question.constants)).fetchall()
        else:
            sql, constants = self.questions[question.name]
            kinds = CONSTANTS[question.name].split()
            given = [int(text) if kind in NUMBERS else text for kind, text in zip(kinds, question.constants)]
            if given:
                given = [given[place] for place in SQL_ORDER.get(question.name, range(len(given)))]
            rows = self.base.execute(sql, given or constants).fetchall()
        return ["|".join("NULL" if value is None else str(value) for value in row) for row in rows]


def replay(data, tables, replies, commits, picked):
    """Judges all refreshes, and the answers that are picked."""
    warehouse = Warehouse(data, tables)
    refreshes, told = {}, {}
    for reply in replies:
        if reply.is_commit():
            refreshes[reply.number] = reply
        elif reply.refusal or reply in picked:
            told.setdefault(reply.number, []).append(reply)
    for number in range(commits + 1):
        for reply in told.get(number, []):
            judge_reply(warehouse, reply)
        if number < commits:
            reply = refreshes[number + 1]
            refusal = warehouse.refusal(reply.request)
            if refusal:
                raise Disagreement(f"commit {number + 1} of client {reply.client}: {refusal} speaks against it")
            warehouse.commit(reply.request)


def judge_reply(warehouse, reply):
    where = f"client {reply.client} after {reply.number} commits"
    if reply.refusal:
        expected = warehouse.refusal(reply.request)
        if expected != reply.refusal:
            raise Disagreement(f"{where} was told {reply.refusal} in place of {expected}")
    elif warehouse.rows(reply.request) != reply.rows:
        raise Disagreement(f"{where}: {reply.request.records()[0]} has other rows in SQLite")
