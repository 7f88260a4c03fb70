"""The peers of `standing`: PostgreSQL and ClickHouse, which keep the totals of the thirteen in their own ways.

    missing()               the Debian package that is to be installed first, or None
    start(data)             starts the peer with the tables of a folder, and the totals of the thirteen over them
    ask(name)               the rows of a query, from its totals
    refreshes(orders)       the refreshes a second of one client, which adds each of the orders and withdraws it
    stop()                  ends what start() started

**PostgreSQL** has a summary table for each query. One trigger follows the inserted lines of a statement and one the
deleted ones, as transition tables, with a statement for each of the thirteen. **ClickHouse** has a materialized view
for each query, over the wide table, whose engine sums up. Its views follow inserts alone: so an order is withdrawn by
its lines once more, with -1 in a column that they are multiplied by, as its guides say. It checks no refresh."""
import re
import time

from common import HERE, NAMES, read_queries
from peers import ClickHouseFlat, Postgres

FORM = re.compile(r"SELECT (?P<shown>.*?)\s+FROM (?P<tables>.*?)\s+WHERE (?P<tests>.*?)(?:\s+GROUP BY (?P<groups>.*?))?"
                  r"(?:\s+ORDER BY (?P<order>.*?))?;\s*", re.DOTALL)
SUM = re.compile(r"(?:if\(count\(\) = 0, NULL, )?sum\((?P<measure>(?:[^()]|\([^()]*\))*)\)\)?(?: AS (?P<name>\w+))?")


class Summary:
    """What a query's statement is made of."""

    def __init__(self, name, sql):
        parts = FORM.fullmatch(sql)
        found = SUM.search(parts["shown"])
        self.table = "standing_" + name.lower().replace(".", "_")
        self.tables, self.tests, self.measure = parts["tables"], parts["tests"], found["measure"]
        self.groups = re.split(r",\s*", parts["groups"]) if parts["groups"] else []
        self.shown = SUM.sub("{total}", parts["shown"], count=1)
        self.order = parts["order"]
        self.name = found["name"] or "total"

    def key(self):
        return ", ".join(self.groups) or "one"


def summaries(path):
    queries = read_queries(HERE / path)
    return {name: Summary(name, queries[name]) for name in NAMES}


class PostgresTotals(Postgres):
    title = "PostgreSQL, summary tables"

    def start_over(self, data):
        self.start()
        self.load(data)
        self.rows((HERE / "refresh_pg.sql").read_text())
        self.summaries = summaries("queries.sql")
        for one in self.summaries.values():
            self.rows(f"CREATE TABLE {one.table} AS {self.grouped(one, one.tables)};\n"
                      f"ALTER TABLE {one.table} ADD PRIMARY KEY ({one.key()});")
        for word, sign, changed in [("INSERT", "", "NEW"), ("DELETE", "-", "OLD")]:
            self.rows(self.trigger(word.lower(), sign, changed, word))
        self.rows("VACUUM ANALYZE;")

    def grouped(self, one, tables, sign=""):
        """The sums and the counts of a query's groups; without groups there is always one row."""
        total, groups = f"{sign}sum({one.measure})", ", ".join(one.groups)
        heads = f"{groups}, {total} AS total" if groups else f"1 AS one, coalesce({total}, 0) AS total"
        by = f" GROUP BY {groups}" if groups else ""
        return f"SELECT {heads}, {sign}count(*) AS lines FROM {tables} WHERE {one.tests}{by}"

    def trigger(self, name, sign, changed, event):
        """What follows the lines of one kind of statement."""
        def followed(one):
            tables = re.sub(r"\blineorder\b", "changed AS lineorder", one.tables)
            return (f"INSERT INTO {one.table} {self.grouped(one, tables, sign)} ON CONFLICT ({one.key()}) "
                    f"DO UPDATE SET total = {one.table}.total + excluded.total, "
                    f"lines = {one.table}.lines + excluded.lines;")
        body = "\n".join(map(followed, self.summaries.values()))
        return (f"CREATE FUNCTION follow_{name}() RETURNS trigger LANGUAGE plpgsql AS $$\n"
                f"BEGIN\n{body}\nRETURN NULL;\nEND $$;\n"
                f"CREATE TRIGGER follow_{name} AFTER {event} ON lineorder REFERENCING {changed} TABLE AS changed "
                f"FOR EACH STATEMENT EXECUTE FUNCTION follow_{name}();")

    def ask(self, name):
        one = self.summaries[name]
        if not one.groups:
            return self.rows(f"SELECT CASE WHEN lines > 0 THEN total END FROM {one.table};")
        shown = one.shown.replace("{total}", f"total AS {one.name}")
        return self.rows(f"SELECT {shown} FROM {one.table} WHERE lines > 0 ORDER BY {one.order};")

    def refreshes(self, orders):
        self.rows("SET synchronous_commit = off;")
        def row(line):
            return f"({','.join(map(quoted, line))})::lineorder"
        adds = [(order[0][0], f"ARRAY[{', '.join(map(row, order))}]") for order in orders]
        start = time.monotonic()
        for key, lines in adds:
            self.rows(f"SELECT add_order({lines});")
            self.rows(f"SELECT withdraw_order({key});")
        return 2 * len(adds) / (time.monotonic() - start)


def quoted(field):
    return field if field.isdigit() else "'" + field.replace("'", "''") + "'"


class ClickHouseTotals(ClickHouseFlat):
    title = "ClickHouse, materialized views"

    def start_over(self, data):
        self.start()
        self.load(data)
        self.post("ALTER TABLE lineorder_flat ADD COLUMN sign Int8 DEFAULT 1")
        self.summaries = summaries(self.queries)
        for one in self.summaries.values():
            heads = ", ".join(one.groups) or "1 AS one"
            self.post(f"CREATE MATERIALIZED VIEW {one.table} ENGINE = SummingMergeTree ORDER BY ({one.key()}) "
                      f"POPULATE AS SELECT {heads}, sum(toInt64({one.measure}) * sign) AS summed, "
                      f"sum(toInt64(sign)) AS lines "
                      f"FROM lineorder_flat WHERE {one.tests} GROUP BY {one.key()}")
        self.wide = self.wide_columns(data)

    def wide_columns(self, data):
        """By table and key what the wide table has of a row."""
        columns = {"date": [4, 5, 6, 11], "customer": [3, 4, 5], "supplier": [3, 4, 5], "part": [2, 3, 4]}
        wide = {}
        for table, places in columns.items():
            with open(data / f"{table}.tbl") as lines:
                rows = (line.rstrip("\n").split("|") for line in lines)
                wide[table] = {row[0]: [row[place] for place in places] for row in rows}
        return wide

    def ask(self, name):
        one = self.summaries[name]
        if not one.groups:
            return self.rows(f"SELECT if(sum(lines) > 0, sum(summed), NULL) FROM {one.table}")
        shown = one.shown.replace("{total}", f"sum(summed) AS {one.name}")
        return self.rows(f"SELECT {shown} FROM {one.table} GROUP BY {one.key()} HAVING sum(lines) > 0 "
                         f"ORDER BY {one.order}")

    def row(self, line, sign):
        wide = [self.wide[table][line[place]] for table, place in [("date", 5), ("customer", 2), ("supplier", 4),
                                                                   ("part", 3)]]
        return "\t".join([*(line[place] for place in [0, 1, 5, 8, 11, 9, 12, 13]), *sum(wide, []), str(sign)]) + "\n"

    def refreshes(self, orders):
        texts = ["".join(self.row(line, sign) for line in order) for order in orders for sign in (1, -1)]
        start = time.monotonic()
        for text in texts:
            self.post(text, query="INSERT INTO lineorder_flat FORMAT TabSeparated")
        return len(texts) / (time.monotonic() - start)


PEERS = [ClickHouseTotals, PostgresTotals]
