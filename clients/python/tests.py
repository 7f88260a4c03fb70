#!/usr/bin/env python3
"""tests.py [PROGRAM] [WORD..]: tries the client with the real program, and with servers that break.

PROGRAM is ssb_live (by default out/start/ssb_live, which `./start` makes); the other words are unittest's. The tables
are small, and what is asked of them was reckoned by hand. It takes some seconds; the status is 1 where a test fails.
"""
import contextlib
import datetime
import importlib.util
import json
import os
import pathlib
import random
import resource
import signal
import subprocess
import sys
import tempfile
import threading
import time
import types
import unittest
import unittest.mock
import warnings

sys.dont_write_bytecode = True
HERE = pathlib.Path(__file__).resolve().parent
sys.path.insert(0, str(HERE))
import ssb_live

PROGRAM = HERE.parent.parent / "out/start/ssb_live"
PATIENCE = 30
SOON = 5                # seconds in which what cannot be is told, with the short timeouts below
TABLES = {
    "customer": ["1|Ann|street 1|CHINA    0|CHINA|ASIA|1|BUILDING",
                 "2|Bo|street 2|UNITED ST1|UNITED STATES|AMERICA|2|FOOD"],
    "supplier": ["1|Cy|street 3|JAPAN    1|JAPAN|ASIA|3"],
    "part": ["1|nut|MFGR#1|MFGR#12|MFGR#1201|red|STEEL|10|BOX", "2|bolt|MFGR#2|MFGR#21|MFGR#2101|blue|STEEL|10|BOX"],
    "date": ["19930615|a|b|c|1993|199306|Jun1993|d|e|f|g|24|h|i|j|k|l",
             "19940101|a|b|c|1994|199401|Jan1994|d|e|f|g|1|h|i|j|k|l"],
    "lineorder": ["7|1|1|1|1|19930615|5-LOW|0|10|1000|4000|2|980|600|0|19930615|AIR",
                  "7|2|2|2|1|19930615|5-LOW|0|20|3000|4000|3|2910|1800|0|19930615|AIR",
                  "8|1|1|2|1|19940101|5-LOW|0|5|500|500|1|495|300|0|19940101|RAIL"]}
Q1_1 = 1000 * 2 + 3000 * 3          # of the lines of 1993 with a discount of 1 to 3, and fewer than 25 pieces
BY_NATION = ("star", "LO_REVENUE", "C_NATION", "D_YEAR")
TWICE = ("star", "COUNT", "C_REGION", "C_REGION")       # each constant may be one, and the server takes no column twice


def line(key, number=1, price=100, discount=2, date=19930615):
    """A line of an order, whose price times discount Q1.1 counts."""
    return (key, number, 1, 1, 1, date, "5-LOW", 0, 10, price, price, discount, price, 60, 0, date, "AIR")


class Trial(unittest.TestCase):
    """A folder with the tables and some clients' pipes."""

    def setUp(self):
        folder = tempfile.TemporaryDirectory(prefix="ssb_live-")
        self.addCleanup(folder.cleanup)
        self.folder, self.process = pathlib.Path(folder.name), None
        self.ends = [(self.folder / f"in-{number}", self.folder / f"out-{number}") for number in (1, 2)]
        for name, rows in TABLES.items():
            (self.folder / f"{name}.tbl").write_text("".join(f"{row}\n" for row in rows))
        for end in sum(self.ends, ()):
            os.mkfifo(end)

    def serve(self, *words, clients=1, prepare=None):
        """Starts the program; `prepare` is called in its process before."""
        words = [*words, *(word for ends in self.ends[:clients] for word in ("--client", *ends))]
        self.process = subprocess.Popen([PROGRAM, "serve", "--data", self.folder, "--quiet", *words],
                                        stdin=subprocess.DEVNULL, preexec_fn=prepare)
        self.addCleanup(self.stop, self.process)

    @staticmethod
    def stop(process):
        if process.poll() is None:
            process.send_signal(signal.SIGCONT)
            process.kill()
        process.wait(PATIENCE)

    def connect(self, client=0, timeout=PATIENCE):
        live = ssb_live.connect(*self.ends[client], timeout=timeout)
        self.addCleanup(live.close)
        return live

    def raises(self, kind, text=""):
        return self.assertRaisesRegex(kind, text)

    @contextlib.contextmanager
    def soon(self):
        start = time.monotonic()
        yield
        self.assertLess(time.monotonic() - start, SOON)

    def later(self, work):
        """Runs this in a thread; gives a call that waits for its end, and raises what it raised."""
        told = []

        def run():
            try:
                told.append((work(), None))
            except Exception as fault:
                told.append((None, fault))
        thread = threading.Thread(target=run, daemon=True)
        thread.start()

        def end():
            thread.join(PATIENCE)
            self.assertTrue(told, "it hangs")
            value, fault = told[0]
            if fault:
                raise fault
            return value
        return end


class Answers(Trial):
    def setUp(self):
        super().setUp()
        self.serve()
        self.live = self.connect()

    def test_an_answer_has_its_commits_its_columns_and_its_rows(self):
        answer = self.live.ask("Q1.1")
        self.assertEqual((answer.at, answer.columns, answer.rows), (0, ("LO_EXTENDEDPRICE*LO_DISCOUNT",), [(Q1_1,)]))

    def test_an_answer_is_the_sequence_of_its_rows(self):
        answer = self.live.ask(*BY_NATION)
        rows = [("CHINA", 1993, 980), ("CHINA", 1994, 495), ("UNITED STATES", 1993, 2910)]
        self.assertEqual((answer.columns, list(answer)), (("C_NATION", "D_YEAR", "LO_REVENUE"), rows))
        self.assertEqual((len(answer), answer[-1]), (3, rows[2]))

    def test_an_answer_is_a_frame_of_pandas(self):
        """Of a stand-in, and of pandas itself where it is installed."""
        answer, columns = self.live.ask(*BY_NATION), ["C_NATION", "D_YEAR", "LO_REVENUE"]
        stand_in = types.SimpleNamespace(DataFrame=lambda rows, columns: (rows, columns))
        with unittest.mock.patch.dict(sys.modules, pandas=stand_in):
            self.assertEqual(answer.to_pandas(), (answer.rows, columns))
        if importlib.util.find_spec("pandas"):
            frame = answer.to_pandas()
            self.assertEqual((list(frame.columns), frame.shape), (columns, (3, 3)))
            sums = frame.groupby("C_NATION")["LO_REVENUE"].sum().to_dict()
            self.assertEqual(sums, {"CHINA": 1475, "UNITED STATES": 2910})
            self.assertEqual(self.live.ask("star", "COUNT", "D_YEAR", "D_YEAR=1995").to_pandas().shape, (0, 2))

    def test_a_frame_needs_pandas(self):
        answer = self.live.ask(*BY_NATION)
        with unittest.mock.patch.dict(sys.modules, pandas=None):
            with self.raises(ssb_live.NoPandas, "needs pandas: .* pandas .*; `rows` has the rows") as told:
                answer.to_pandas()
        self.assertIsInstance(told.exception, ImportError)
        self.assertEqual(len(answer.rows), 3)

    def test_a_statement_has_its_heads_and_its_rows(self):
        answer = self.live.ask_sql("""
            SELECT c_nation, sum(lo_revenue) AS revenue, count(*), avg(lo_quantity)   -- ; by nation
            FROM lineorder JOIN customer ON lo_custkey = c_custkey /* and
            so on */ GROUP BY c_nation ORDER BY revenue;""")
        self.assertEqual(answer.columns, ("C_NATION", "revenue", "COUNT", "AVG(LO_QUANTITY)"))
        self.assertEqual([row[:2] for row in answer], [("CHINA", 1475), ("UNITED STATES", 2910)])
        self.assertRegex(answer[0][3], r"\d+\.\d{4}")
        self.assertEqual(self.live.ask_sql("SELECT count(*) FROM lineorder WHERE lo_quantity = 50").rows, [(0,)])
        self.assertEqual(self.live.ask("Q1.1").rows, [(Q1_1,)])

    def test_a_statement_that_is_none_is_a_fault(self):
        with self.raises(ssb_live.Fault, "79 Sql 1 53 NotSupported 1 8") as told:
            self.live.ask_sql("SELECT max(lo_revenue)\nFROM lineorder")
        self.assertEqual((told.exception.number, told.exception.record), (79, "sql|SELECT max(lo_revenue) FROM lineorder"))
        with self.raises(ssb_live.ProgrammingError, "end of a line"):
            self.live.ask_sql("SELECT count(*) FROM lineorder, customer WHERE lo_custkey = c_custkey AND c_city = 'A\nB'")
        self.assertEqual(self.live.ask("Q1.1").rows, [(Q1_1,)])

    def test_constants_are_sent_as_they_are(self):
        self.assertEqual(self.live.ask("Q1.1", 1994, 1, 1, 0, 24).rows, [(500,)])
        self.assertEqual(self.live.ask("star", "COUNT", "C_CITY=CHINA    0", "ORDER=SUM").rows, [(2,)])

    def test_a_sum_of_no_lines_is_none(self):
        self.assertEqual(self.live.ask("Q1.1", 1995, 1, 3, 0, 24).rows, [(None,)])
        self.assertEqual(self.live.ask("star", "COUNT", "D_YEAR", "D_YEAR=1995").rows, [])

    def test_a_value_that_no_line_has_is_warned_of(self):
        cases = [(("star", "COUNT", "C_REGION=Asia"), "no line has C_REGION Asia; its 2 values: AMERICA, ASIA$"),
                 (("star", "COUNT", "D_YEAR", "D_YEAR=1995..1993"), "no line has D_YEAR 1995..1993; its 2 values"),
                 (("Q2.1", "MFGR#99", "ASIA"), "no line has P_CATEGORY MFGR#99"),
                 (("Q3.1", "ASIA", "EUROPE", 1992, 1997), "no line has S_REGION EUROPE; its 1 values: ASIA")]
        for question, text in cases:
            with self.assertWarnsRegex(ssb_live.UnknownValue, text):
                self.live.ask(*question)
        with self.assertWarnsRegex(ssb_live.UnknownValue, cases[0][1]):
            self.live.ask_together(["Q1.1", cases[0][0]])
        with warnings.catch_warnings():
            warnings.simplefilter("error")
            self.live.ask("star", "COUNT", "C_REGION=AMERICA", "D_YEAR=1994")      # both are there, in no one line
            self.live.warns = False
            self.live.ask(*cases[0][0])

    def test_columns_and_rows_are_those_of_the_program_itself(self):
        questions = [(f"Q{name}",) for name in "1.1 1.2 1.3 2.1 2.2 2.3 3.1 3.2 3.3 3.4 4.1 4.2 4.3".split()]
        for question in [*questions, ("Q3.1", "ASIA", "ASIA", 1992, 1994), BY_NATION, (*BY_NATION, "ORDER=SUM")]:
            words = [PROGRAM, "query", "--data", self.folder, "--format", "json", *map(str, question)]
            told = json.loads(subprocess.check_output(words))
            answer = self.live.ask(*question)
            self.assertEqual([list(answer.columns), list(map(list, answer))], [told["columns"], told["rows"]], question)

    def test_a_fault_is_raised_and_the_connection_goes_on(self):
        for question in [TWICE, ("star", "COUNT", *ssb_live.GROUPS[:5]), ("star", "COUNT", "D_YEAR=1", "D_YEAR=1..2")]:
            record = "|".join(("query", *question))
            with self.raises(ssb_live.Fault, f"70 BadLine 1: {record}".replace("|", ".")) as told:
                self.live.ask(*question)
            self.assertEqual((told.exception.number, told.exception.record), (70, record))
        self.assertEqual(self.live.ask("Q1.1").rows, [(Q1_1,)])

    def test_what_would_be_another_request_is_not_sent(self):
        for text in ("ASIA|ASIA", "ASIA\nquery", "ASIA\r", "ASIA "):
            for question in [("Q2.1", "MFGR#12", text), ("star", "COUNT", f"C_REGION={text}"),
                             ("star", "COUNT", f"C_REGION={text}..EUROPE")]:
                with self.raises(ssb_live.WrongValue, "S_REGION, is|C_REGION, is") as told:
                    self.live.ask(*question)
                self.assertRegex(str(told.exception), "a text without a bar, an end of a line, or a space at its end")
                self.assertEqual(told.exception.value, text)
        for question in (("star", "COUNT", ""), ("Q1.1", "")):
            with self.raises(ssb_live.WrongValue, "wanted"):
                self.live.ask(*question)
        with self.raises(ssb_live.ProgrammingError, "at most 1,048,576 bytes"), self.live.refresh() as refresh:
            for key in range(2**20 // len("withdraw|7")):
                refresh.withdraw(key % 10)
        self.assertEqual(self.live.ask("Q1.1").rows, [(Q1_1,)])

    def test_a_constant_of_another_type_is_not_sent(self):
        wanted = [(("Q1.1", 1993.0, 1, 3, 0, 24), "Q1.1: constant 1, D_YEAR, is 1993.0; a whole", "D_YEAR", 1993.0),
                  (("Q1.1", 1993, 1, None, 0, 24), "constant 3, LO_DISCOUNT to, is None", "LO_DISCOUNT", None),
                  (("Q3.1", "ASIA", b"ASIA", 1992, 1997), "S_REGION, is b'ASIA'; a text is", "S_REGION", b"ASIA"),
                  (("star", "COUNT", 1993), "star: constant 2 is 1993; a text is wanted", None, 1993),
                  ((b"Q1.1",), "the name of a question is b'Q1.1'; a text is wanted", None, b"Q1.1")]
        for question, text, column, value in wanted:
            with self.raises(ssb_live.WrongType, text) as told:
                self.live.ask(*question)
            self.assertEqual((told.exception.column, told.exception.value), (column, value))
            self.assertIsInstance(told.exception, TypeError)
        for questions in ("Q1.1", 7, [7]):
            with self.raises(ssb_live.WrongType, "a list of them is wanted|a name, or a name with constants"):
                self.live.ask_together(questions)

    def test_a_constant_that_none_can_be_is_not_sent(self):
        wanted = [(("q1.1",), "the name of a question is 'q1.1'; Q1.1 to Q4.3 or star is wanted", None, "q1.1"),
                  (("Q1.1", 1993, 1, 3, 0, ""), "constant 5, LO_QUANTITY to, is ''; a whole number", "LO_QUANTITY", ""),
                  (("Q1.1", 2**32, 1, 3, 0, 24), "D_YEAR, is 4294967296; .* from 0 to 2.32 - 1", "D_YEAR", 2**32),
                  (("Q1.1", -1, 1, 3, 0, 24), "D_YEAR, is -1; a whole number from 0", "D_YEAR", -1),
                  (("Q2.1", "MFGR#12", "x" * 65), "S_REGION, has 65 bytes; at most 64 are", "S_REGION", "x" * 65),
                  (("star", "count"), "star: constant 1 is 'count'; a measure is wanted: LO_REVENUE", None, "count"),
                  (("star",), "star: constant 1 is ''; a measure is wanted", None, ""),
                  (("star", "COUNT", "c_region"), "constant 2 is 'c_region'; COLUMN, .* C_REGION", None, "c_region"),
                  (("star", "COUNT", "LO_TAX=1"), "constant 2 is 'LO_TAX=1'", None, "LO_TAX=1"),
                  (("star", "COUNT", "LO_QUANTITY"), "constant 2 is 'LO_QUANTITY'", None, "LO_QUANTITY"),
                  (("star", "COUNT", "D_YEAR=1993..x"), "star: constant 2, D_YEAR, is 'x'", "D_YEAR", "x"),
                  (("star", "COUNT", "D_YEAR=1993", "C_CITY"), "3 is 'C_CITY'; group columns before", None, "C_CITY"),
                  (("star", "COUNT", "ORDER=SUM", "D_YEAR=1"), "and ORDER=SUM last, are wanted", None, "D_YEAR=1"),
                  (("Q1.1", 1993), "Q1.1 has 1 of its constants; none, or all 5, are wanted: D_YEAR,", None, None)]
        for question, text, column, value in wanted:
            with self.raises(ssb_live.WrongValue, text) as told:
                self.live.ask(*question)
            self.assertEqual((told.exception.column, told.exception.value), (column, value))
            self.assertIsInstance(told.exception, ValueError)
        self.assertEqual(self.live.ask("Q1.1").rows, [(Q1_1,)])

    def test_what_is_not_sent_the_server_refuses_too(self):
        """So nothing that can be asked is held back."""
        pick, held = random.Random(7).choice, 0
        values = ["ASIA", "x" * 64, "x" * 65, " a", "..", "5", "01993", "0" * 21, "4294967296", "-1", "1993..1995"]
        names = [*ssb_live.GROUPS, *ssb_live.TESTS, "LO_TAX", "c_region", "ORDER"]
        for _ in range(1000):
            name = pick(["star", "star", *ssb_live.CONSTANTS])
            if name == "star":
                tests = [f"{pick(names)}={pick(values)}" for _ in range(3)]
                more = [pick([pick(names), test, "ORDER=SUM", pick(values)]) for test in tests]
                constants = [pick(["COUNT", "COUNT", "count"]), *more[:pick(range(4))]]
            else:
                constants = [pick(values[:6]) for _ in ssb_live.CONSTANTS[name]][:pick([1, 9, 9])]
            try:
                ssb_live.question_of((name, *constants))
            except ssb_live.Misfit:
                held += 1
                request = "|".join(("query", name, *constants)) + "\n"
                self.assertEqual(self.live.exchange(request.encode()), b"fault: 70 BadLine 1\n", request)
        self.assertGreater(held, 300)

    def test_an_empty_last_constant_is_a_constant(self):
        self.assertEqual(self.live.ask("Q2.1", "MFGR#12", "").rows, [])
        self.assertEqual(self.live.ask("star", "COUNT", "C_CITY=").rows, [(None,)])

    def test_all_that_is_asked_for_by_the_constants_of_the_thirteen_is_taken(self):
        texts = {"P_CATEGORY": "MFGR#12", "P_BRAND1": "MFGR#1201", "P_MFGR": "MFGR#1", "C_CITY": "CHINA    0"}
        for name, constants in ssb_live.CONSTANTS.items():
            columns = [constant.split()[0] for constant in constants]
            asked = [7 if column in ssb_live.NUMBERS else texts.get(column, "ASIA") for column in columns]
            with warnings.catch_warnings():
                warnings.simplefilter("ignore", ssb_live.UnknownValue)
                self.assertEqual(self.live.ask(name, *asked).at, 0)

    def test_a_connection_that_is_closed_says_so(self):
        self.live.close()
        self.live.close()
        with self.raises(ssb_live.InterfaceError, "is closed"):
            self.live.ask("Q1.1")
        self.assertEqual(self.process.wait(PATIENCE), 0)


class Together(Trial):
    def setUp(self):
        super().setUp()
        self.serve(clients=2)
        self.live, self.other = self.connect(0), self.connect(1)

    def test_questions_that_are_asked_together_are_of_one_moment(self):
        is_over = threading.Event()

        def refresh():
            key = 100
            while not is_over.is_set():
                with self.other.refresh() as it:
                    it.add(line(key))
                key += 1
        end, moments = self.later(refresh), set()
        for _ in range(200):
            sums, counts = self.live.ask_together(["Q1.1", ("star", "COUNT")])
            self.assertEqual((sums.at, sums.rows), (counts.at, [(Q1_1 + 200 * sums.at,)]))
            self.assertEqual(counts.rows, [(3 + counts.at,)])
            moments.add(sums.at)
        is_over.set()
        end()
        self.assertGreater(len(moments), 1)

    def test_sixteen_may_be_asked_together(self):
        answers = self.live.ask_together([("star", "COUNT", f"LO_QUANTITY={number}") for number in range(1, 17)])
        counts = [1 if number in (5, 10) else None for number in range(1, 17)]
        self.assertEqual([answer.rows for answer in answers], [[(count,)] for count in counts])

    def test_a_fault_is_that_of_all(self):
        with self.raises(ssb_live.Fault, "70 BadLine 3: query.star.COUNT.C_REGION.C_REGION"):
            self.live.ask_together(["Q1.1", TWICE, "Q1.1"])
        for count in (0, 17):
            with self.raises(ssb_live.WrongValue, f"^{count} questions are asked together; 1 to 16 are wanted"):
                self.live.ask_together(["Q1.1"] * count)
        self.assertEqual(self.live.ask("Q1.1").rows, [(Q1_1,)])

    def test_two_clients_at_once_see_their_own_commits_and_never_go_back(self):
        def work(live, first):
            seen = 0
            for key in range(first, first + 200):
                with live.refresh() as refresh:
                    refresh.add(line(key))
                answer = live.ask("star", "COUNT")
                self.assertGreater(refresh.committed, seen)
                self.assertGreaterEqual(answer.at, refresh.committed)
                self.assertEqual(answer.rows, [(3 + answer.at,)])
                seen = answer.at
        for end in [self.later(lambda it=it: work(*it)) for it in ((self.live, 1000), (self.other, 2000))]:
            end()
        self.assertEqual(self.live.ask("star", "COUNT").rows, [(403,)])

    def test_threads_may_share_a_connection(self):
        def work(year, lines):
            for _ in range(100):
                self.assertEqual(self.live.ask("star", "COUNT", f"D_YEAR={year}").rows, [(lines,)])
        for end in [self.later(lambda it=it: work(*it)) for it in ((1993, 2), (1994, 1), (1995, None))]:
            end()

    def test_a_pair_of_pipes_has_one_client(self):
        with self.soon(), self.raises(ssb_live.InterfaceError, "in use by another client"):
            self.connect(0, timeout=1)
        self.assertEqual(self.live.ask("Q1.1").rows, [(Q1_1,)])


class Refreshes(Trial):
    def setUp(self):
        super().setUp()
        self.serve()
        self.live = self.connect()

    def test_a_refresh_is_committed_at_the_end_of_its_block(self):
        with self.live.refresh() as refresh:
            refresh.add(line(9, 1, 100), line(9, 2, 1000))
            refresh.amend(line(8, 1, 10))
            refresh.withdraw(7)
            self.assertEqual((self.live.ask("Q1.1").at, refresh.committed), (0, None))
        answer = self.live.ask("Q1.1")
        self.assertEqual((refresh.committed, answer.at, answer.rows), (1, 1, [(200 + 2000 + 20,)]))

    def test_an_order_is_put_whether_it_is_live_or_not(self):
        with self.live.refresh() as refresh:
            refresh.put(line(9, 1, 100), line(9, 2, 1000))
            refresh.put(line(7, 4, 10))
            refresh.put(dict(zip(ssb_live.LINEORDER, line(9, 3, 30))))
        self.assertEqual((refresh.committed, self.live.ask("Q1.1").rows), (1, [(10 * 2 + 30 * 2,)]))
        self.assertEqual([[row[1] for row in self.live.order(key)] for key in (7, 9)], [[4], [3]])

    def test_an_order_is_shown_as_it_is_then(self):
        answer = self.live.order(7)
        self.assertEqual((answer.name, answer.at, answer.columns), ("order", 0, ssb_live.LINEORDER))
        self.assertEqual(["|".join(map(str, row)) for row in answer], TABLES["lineorder"][:2])
        self.assertEqual(answer[1][5:10], (19930615, "5-LOW", "0", 20, 3000))
        with self.live.refresh() as refresh:
            refresh.amend(*((*row[:8], row[8] + 1, *row[9:]) for row in answer))
            refresh.withdraw(8)
        self.assertEqual([row[8] for row in self.live.order("07")], [11, 21])
        for key in (8, 2**64 - 1):
            shown = self.live.order(key)
            self.assertEqual((shown.at, shown.rows, shown.constants), (1, [], (key,)))
        for key, kind in [(-1, ssb_live.WrongValue), (2**64, ssb_live.WrongValue), (7.0, ssb_live.WrongType)]:
            with self.raises(kind, "LO_ORDERKEY is"):
                self.live.order(key)

    def test_columns_their_values_and_the_status_are_looked_up(self):
        columns = self.live.columns()
        self.assertEqual((columns[0], columns[13]), (("C_CITY", "customer", "text"), ("D_YEAR", "date", "number")))
        self.assertEqual([column for column, _, _ in columns], list(ssb_live.GROUPS))
        self.assertEqual(self.live.values("C_NATION"), ["CHINA", "UNITED STATES"])
        self.assertEqual((self.live.values("D_YEAR"), self.live.values("S_REGION")), ([1993, 1994], ["ASIA"]))
        with self.raises(ssb_live.WrongValue, "a column is 'LO_TAX'"):
            self.live.values("LO_TAX")
        with self.live.refresh() as refresh:
            refresh.withdraw(7)
        status = self.live.status()
        self.assertEqual([status[name] for name in ("commits", "live lines", "sessions", "47 Absent")], [1, 1, 1, 1])
        self.assertEqual(self.live.exchange(b"values|D_YEAR\ncolumns\n", 2).splitlines()[:4],
                         [b"values D_YEAR rows 2", b"1993", b"1994", b"columns rows %d" % len(columns)])

    def test_values_beyond_the_most_are_told(self):
        self.assertEqual(self.live.values("C_CITY"), ["CHINA    0", "UNITED ST1"])
        rows = [f"{key}|Ann|street 1|CITY{key:05}|CHINA|ASIA|1|BUILDING\n" for key in range(1, 10_003)]
        (self.folder / "customer.tbl").write_text("".join(rows))
        self.live.close()
        self.assertEqual(self.process.wait(PATIENCE), 0)
        self.serve()
        self.live = self.connect()
        with self.assertWarnsRegex(ssb_live.MoreValues, "C_CITY has 10002 values, of which these are the first"):
            values = self.live.values("C_CITY")
        self.assertEqual(values, [f"CITY{key:05}" for key in range(1, 10_001)])
        head = self.live.exchange(b"values|C_CITY\n").split(b"\n", 1)[0]
        self.assertEqual(head, b"values C_CITY rows 10000 of 10002")

    def test_a_line_can_be_given_by_names(self):
        named = dict(zip(ssb_live.LINEORDER, line(9)))
        with self.live.refresh() as refresh:
            refresh.add(named)
        self.assertEqual(self.live.ask("Q1.1").rows, [(Q1_1 + 200,)])
        del named["LO_TAX"]
        for other, text in [(named, "a line lacks LO_TAX; the columns of LINEORDER are wanted"),
                            ({**named, "lo_tax": 0}, "a line lacks LO_TAX and has lo_tax; the columns"),
                            ({}, "a line lacks LO_COMMITDATE, LO_CUSTKEY, LO_DISCOUNT, 14 more; the columns")]:
            with self.raises(ssb_live.WrongValue, text), self.live.refresh() as refresh:
                refresh.add(other)

    def test_a_refusal_is_raised_and_changes_nothing(self):
        with self.raises(ssb_live.Refused, "action 2: 47 Absent 77") as told, self.live.refresh() as refresh:
            refresh.add(line(9))
            refresh.withdraw(77)
        refused = told.exception
        self.assertEqual((refused.at, refused.action, refused.number, refused.text), (0, 2, 47, "47 Absent 77"))
        self.assertIsNone(refresh.committed)
        self.assertEqual(self.live.ask("Q1.1").rows, [(Q1_1,)])

    def test_a_fault_of_a_refresh_is_raised(self):
        cases = [(lambda it: None, "72 EmptyBlock 2"), (lambda it: it.add(), "73 Row 2 1 NoLines"),
                 (lambda it: it.add(line(9, number=8)), "73 Row 3 10 OutOfRange LO_LINENUMBER: LO_LINENUMBER is 8")]
        for work, text in cases:
            with self.raises(ssb_live.Fault, text), self.live.refresh() as refresh:
                work(refresh)
        with self.raises(ssb_live.Fault, "73 Row 5 10 OutOfRange LO_DISCOUNT: LO_DISCOUNT is 11") as told:
            with self.live.refresh() as refresh:
                refresh.withdraw(7)
                refresh.add(line(9), line(9, number=2, discount=11))
        self.assertEqual((told.exception.column, told.exception.value), ("LO_DISCOUNT", "11"))
        self.assertEqual(told.exception.text, "73 Row 5 10 OutOfRange LO_DISCOUNT")
        for lines, text, column, value in [
                ([line(9), line(10, number=2)], "3 KeysDiffer: LO_ORDERKEY is 10 and 9$", "LO_ORDERKEY", "10 and 9"),
                ([line(9), line(9, number=3), line(9, number=3)], "4 LineRepeated 3: LO_LINENUMBER is 3$",
                 "LO_LINENUMBER", "3")]:
            with self.raises(ssb_live.Fault, f"73 Row 3 {text}") as told, self.live.refresh() as refresh:
                refresh.withdraw(7)
                refresh.add(*lines)
            fault = told.exception
            self.assertEqual((fault.column, fault.value, fault.record), (column, value, "add"))
        self.assertEqual(self.live.ask("Q1.1").at, 0)

    def test_a_refusal_names_the_key_that_no_row_has(self):
        with self.raises(ssb_live.Refused, "action 2: 45 UnknownDate: LO_ORDERDATE is 20260101") as told:
            with self.live.refresh() as refresh:
                refresh.withdraw(7)
                refresh.add(line(9, date=20260101))
                refresh.withdraw(8)
        self.assertEqual((told.exception.column, told.exception.values), ("LO_ORDERDATE", ["20260101"]))
        with self.raises(ssb_live.Refused, "action 1: 45 UnknownDate: LO_ORDERDATE is 20260102"):
            with self.live.refresh() as refresh:
                refresh.put(line(7, date=20260102))
        for work, text, key in [(lambda it: it.add(line(7)), "41 Present 7", "7"),
                                (lambda it: it.amend(line(77)), "48 AmendAbsent 77", "77"),
                                (lambda it: it.withdraw(77), "47 Absent 77", "77")]:
            with self.raises(ssb_live.Refused, f"action 1: {text}: LO_ORDERKEY is {key}$") as told:
                with self.live.refresh() as refresh:
                    work(refresh)
            self.assertEqual((told.exception.text, told.exception.values), (text, [key]))

    def test_a_value_of_another_type_is_not_sent(self):
        day = datetime.date(1993, 6, 15)
        for column, value, text in [("LO_DISCOUNT", 0.1, "LO_DISCOUNT is 0.1; a whole number is wanted"),
                                    ("LO_TAX", None, "LO_TAX is None; a whole"), ("LO_ORDERKEY", True, "is True"),
                                    ("LO_ORDERDATE", day, r"LO_ORDERDATE is datetime.date\(1993, 6, 15\); a whole"),
                                    ("LO_SHIPMODE", 3, "LO_SHIPMODE is 3; a text is wanted"),
                                    ("LO_SHIPPRIORITY", 0.0, "PRIORITY is 0.0"), ("LO_TAX", b"1", "LO_TAX is b'1'")]:
            named = {**dict(zip(ssb_live.LINEORDER, line(9))), column: value}
            with self.raises(ssb_live.WrongType, text) as told, self.live.refresh() as refresh:
                refresh.add(named)
            self.assertEqual((told.exception.column, told.exception.value), (column, value))
        with self.raises(ssb_live.WrongType, "LO_ORDERKEY is 7.0; a whole number is wanted"):
            self.live.refresh().withdraw(7.0)
        with self.raises(ssb_live.WrongType, "a line is 7; its 17 values are wanted"):
            self.live.refresh().add(7)
        self.assertEqual(self.live.ask("Q1.1").rows, [(Q1_1,)])

    def test_a_value_that_no_column_can_have_is_not_sent(self):
        for column, value, text in [("LO_QUANTITY", "many", "LO_QUANTITY is 'many'; a whole number from 0"),
                                    ("LO_TAX", -1, "LO_TAX is -1; a whole number from 0 to 2.64 - 1 is wanted"),
                                    ("LO_ORDERKEY", 2**64, "LO_ORDERKEY is 18446744073709551616; a whole"),
                                    ("LO_TAX", "1 ", "LO_TAX is '1 '"), ("LO_TAX", "\u0661", "LO_TAX is"),
                                    ("LO_SHIPMODE", "A|R", "LO_SHIPMODE is 'A.R'; a text without a bar"),
                                    ("LO_SHIPMODE", "x" * 65, "LO_SHIPMODE has 65 bytes; at most 64 are wanted")]:
            named = {**dict(zip(ssb_live.LINEORDER, line(9))), column: value}
            with self.raises(ssb_live.WrongValue, text) as told, self.live.refresh() as refresh:
                refresh.add(named)
            self.assertEqual((told.exception.column, told.exception.value), (column, value))
        with self.raises(ssb_live.WrongValue, "a line has 2 values; 17 are wanted"), self.live.refresh() as refresh:
            refresh.add((1, 2))
        self.assertEqual(self.live.ask("Q1.1").rows, [(Q1_1,)])

    def test_values_at_their_ends_are_taken(self):
        named = dict(zip(ssb_live.LINEORDER, line(2**64 - 1)))
        with self.live.refresh() as refresh:
            refresh.add({**named, "LO_SHIPMODE": "\u00e9" * 32, "LO_SHIPPRIORITY": "low", "LO_COMMITDATE": "0"})
        self.assertEqual(self.live.ask("Q1.1").rows, [(Q1_1 + 200,)])

    def test_numbers_may_be_digits(self):
        with self.live.refresh() as refresh:
            refresh.add([str(value) for value in line(9)])
            refresh.withdraw("8")
        self.assertEqual(self.live.ask("star", "COUNT").rows, [(3,)])

    def test_a_block_that_is_left_by_an_exception_sends_nothing(self):
        with self.raises(KeyError), self.live.refresh() as refresh:
            refresh.withdraw(7)
            raise KeyError
        self.assertEqual(self.live.ask("Q1.1").rows, [(Q1_1,)])

    def test_an_abort_drops_the_refresh(self):
        with self.live.refresh() as refresh:
            refresh.withdraw(7)
            refresh.abort()
        answer = self.live.ask("Q1.1")
        self.assertEqual((refresh.committed, answer.at, answer.rows), (None, 0, [(Q1_1,)]))

    def test_a_journal_keeps_the_commits_for_the_next_server(self):
        self.live.close()
        self.assertEqual(self.process.wait(PATIENCE), 0)        # it has the pipes until it has ended
        for commits, word in ((1, "--new-journal"), (2, "--journal")):
            self.serve(word, self.folder / "journal")
            with self.connect() as live:
                with live.refresh() as refresh:
                    refresh.add(line(100 + commits))
                self.assertEqual((refresh.committed, live.ask("star", "COUNT").rows), (commits, [(3 + commits,)]))
            self.assertEqual(self.process.wait(PATIENCE), 0)


def write_nothing():
    """A write to a file fails from now on, as on a full disk."""
    signal.signal(signal.SIGXFSZ, signal.SIG_IGN)
    resource.setrlimit(resource.RLIMIT_FSIZE, (0, resource.RLIM_INFINITY))


class ReadOnlyServers(Trial):
    """A server over a journal of one commit, whose torn end it cannot keep: it takes no refreshes."""

    def setUp(self):
        super().setUp()
        self.serve("--new-journal", self.folder / "journal")
        with self.connect() as live, live.refresh() as refresh:
            refresh.withdraw(7)
        self.assertEqual(self.process.wait(PATIENCE), 0)
        with open(self.folder / "journal", "ab") as file:
            file.write(b" 000000000000057\n26e3bdf5")
        self.serve("--journal", self.folder / "journal", prepare=write_nothing)

    def test_questions_are_answered_and_refreshes_are_not_taken(self):
        with self.connect() as live:
            self.assertEqual((live.ask("star", "COUNT").at, live.ask("star", "COUNT").rows), (1, [(1,)]))
            with self.raises(ssb_live.ReadOnly, "68 ReadOnly"), live.refresh() as refresh:
                refresh.withdraw(8)
            self.assertEqual((live.ask("star", "COUNT").at, live.ask("star", "COUNT").rows), (1, [(1,)]))
        self.assertEqual(self.process.wait(PATIENCE), 4)

    def test_what_a_client_before_left_is_not_taken_for_a_reply(self):
        into, out = (os.open(path, os.O_RDWR | os.O_NONBLOCK) for path in self.ends[0])
        os.write(into, b"begin\nwithdraw|8\ncommit\nx\nquery|Q1.1\nbegin\nwithdraw|7\n")
        with self.connect() as live:
            self.assertEqual(live.ask("star", "COUNT").rows, [(1,)])
            os.close(into)
            os.close(out)


class BrokenServers(Trial):
    def test_a_server_that_never_opens_its_ends(self):
        with self.soon(), self.raises(ssb_live.TimedOut, "no server has opened"):
            self.connect(timeout=0.3)

    def test_ends_that_are_no_pipes(self):
        (self.folder / "plain").write_text("")
        into, out = self.ends[0]
        for ends, text in [((self.folder / "none", out), "No such file"), ((into, "/"), "no named pipe"),
                           ((self.folder / "plain", out), "no named pipe")]:
            with self.soon(), self.raises(ssb_live.InterfaceError, text):
                ssb_live.connect(*ends, timeout=1)

    def test_a_server_that_starts_later_is_waited_for(self):
        end = self.later(self.connect)
        time.sleep(0.3)
        self.serve()
        self.assertEqual(end().ask("Q1.1").rows, [(Q1_1,)])

    def test_a_server_that_is_killed_in_mid_request(self):
        self.serve()
        live = self.connect()
        self.process.send_signal(signal.SIGSTOP)
        end = self.later(lambda: live.ask("Q1.1"))
        time.sleep(0.2)
        self.process.kill()
        with self.soon(), self.raises(ssb_live.Ended, "has ended the session"):
            end()
        with self.raises(ssb_live.InterfaceError, "is closed"):
            live.ask("Q1.1")

    def test_a_server_that_is_killed_between_requests(self):
        self.serve()
        live = self.connect()
        self.process.kill()
        self.process.wait()
        with self.soon(), self.raises(ssb_live.Ended), live.refresh() as refresh:
            refresh.withdraw(7)
        self.assertIsNone(refresh.committed)

    def test_a_server_that_stands_still(self):
        self.serve("--keep")
        live = self.connect(timeout=0.5)
        self.process.send_signal(signal.SIGSTOP)
        with self.soon(), self.raises(ssb_live.TimedOut, "has not replied in 0.5 s"):
            live.ask("Q1.1")
        with self.soon(), self.raises(ssb_live.Error):
            self.connect(timeout=0.5)
        # What it replies later to the question above is not taken for the answer to this one.
        self.process.send_signal(signal.SIGCONT)
        self.assertEqual(self.connect().ask("Q1.1", 1994, 1, 1, 0, 24).rows, [(500,)])

    def test_a_server_that_stands_still_beside_a_thread_that_waits(self):
        self.serve()
        live = self.connect(timeout=0.5)
        self.process.send_signal(signal.SIGSTOP)
        ends = [self.later(lambda: live.ask("Q1.1")) for _ in range(2)]
        for end in ends:
            with self.soon(), self.raises((ssb_live.TimedOut, ssb_live.InterfaceError)):
                end()
        with self.soon():
            live.close()

    def test_a_client_that_left_in_mid_request_leaves_nothing_to_the_next(self):
        self.serve("--keep")
        for left in (b"begin\nadd\nline|9|1", b"begin\nwithdraw|7\n", b"ask\nquery|Q1.1\n", b"query|Q1.1\nquery|Q1"):
            out, into = os.open(self.ends[0][1], os.O_RDONLY), os.open(self.ends[0][0], os.O_WRONLY)
            os.write(into, left)
            time.sleep(0.1)
            live = self.connect()               # the session before it is still there, and goes on
            os.close(into)
            os.close(out)
            self.assertEqual(live.ask("Q1.1").rows, [(Q1_1,)])
            live.close()

    def test_sessions_one_behind_another(self):
        self.serve("--keep")
        for number in range(1, 21):
            with self.connect() as live:
                with live.refresh() as refresh:
                    refresh.add(line(100 + number))
                self.assertEqual(refresh.committed, number)

    def test_a_connection_that_is_forgotten_is_ended(self):
        self.serve()
        ssb_live.connect(*self.ends[0]).ask("Q1.1")
        self.assertEqual(self.process.wait(PATIENCE), 0)


class OtherServers(Trial):
    """What this sends in the server's place: from the greeting on, a reply to each request."""

    def stand_in(self, *replies):
        def work():
            out, into = os.open(self.ends[0][1], os.O_WRONLY), os.open(self.ends[0][0], os.O_RDONLY)
            with open(into) as requests, open(out, "wb", buffering=0) as answers:
                for reply in (None, *replies):
                    for record in requests:
                        if record.startswith("withdraw|"):
                            key = record[9:-1]
                        if record == "commit\n" or record.startswith("query|"):
                            break
                    answers.write(reply or b"refused at 0 action 1: 47 Absent %s\n" % key.encode())
        end = self.later(work)
        live = self.connect(timeout=2)
        self.addCleanup(end)
        return live

    def test_no_memory(self):
        live = self.stand_in(b"Q1.1 unserved: out of memory\n", b"refresh: out of memory\n", b"Q1.1 at 0 rows 0\n")
        with self.raises(ssb_live.Unserved, "Q1.1 unserved"):
            live.ask("Q1.1")
        with self.raises(ssb_live.Unserved, "refresh: out of memory"), live.refresh() as refresh:
            refresh.withdraw(1)
        self.assertEqual(live.ask("Q1.1").rows, [])

    def test_a_reply_that_is_cut(self):
        live = self.stand_in(b"Q2.1 at 0 rows 2\n1|2|3\n4|")
        with self.soon(), self.raises(ssb_live.Ended):
            live.ask("Q2.1")

    def test_what_is_no_reply(self):
        for reply in (b"hello\n", b"Q2.1 at 0 rows 0\n", b"Q1.1 at 0 rows 1\nx\n", b"Q1.1 at 0 rows 1\n1|2\n",
                      b"committed 1\n", b"Q1.1 at 0 rows 0\nmore\n", b"\xff\xfe\n", b"Q1.1 at 0 rows 1\n\n"):
            with self.subTest(reply=reply), self.soon():
                live = self.stand_in(reply)
                with self.raises(ssb_live.OperationalError, "not a reply|not asked for"):
                    live.ask("Q1.1")

    def test_another_server_with_fewer_commits(self):
        live = self.stand_in(b"Q1.1 at 5 rows 0\n", b"Q1.1 at 4 rows 0\n")
        live.ask("Q1.1")
        with self.raises(ssb_live.Ended, "another server"):
            live.ask("Q1.1")

    def test_a_reply_that_comes_drop_by_drop(self):
        live = self.stand_in(b"Q2.1 at 0 rows 1000000\n")
        out, is_over = os.open(self.ends[0][1], os.O_WRONLY), threading.Event()

        def drop():
            with contextlib.suppress(BrokenPipeError):
                while not is_over.wait(0.01):
                    os.write(out, b"1|2|3\n")
        end, live.timeout = self.later(drop), 0.5
        with self.soon(), self.raises(ssb_live.TimedOut):
            live.ask("Q2.1")
        is_over.set()
        end()
        os.close(out)

    def test_both_sides_write_at_once(self):
        """More than both pipes hold, in both directions."""
        count = 20_000

        def work():
            out, into = os.open(self.ends[0][1], os.O_WRONLY), os.open(self.ends[0][0], os.O_RDONLY)
            with open(into) as requests, open(out, "w", buffering=1) as answers:
                for request in requests:
                    if request.startswith("withdraw|"):
                        key = request[9:-1]
                    if request == "commit\n":
                        answers.write(f"refused at 0 action 1: 47 Absent {key}\n")
                    elif request.startswith("query|"):
                        answers.write("Q1.1 at 0 rows 1\n7\n")
        end = self.later(work)
        with self.connect() as live:
            self.assertEqual(live.exchange(b"query|Q1.1\n" * count, count), b"Q1.1 at 0 rows 1\n7\n" * count)
        end()


if __name__ == "__main__":
    if sys.argv[1:] and os.path.exists(sys.argv[1]):
        PROGRAM = pathlib.Path(sys.argv.pop(1)).absolute()
    if not PROGRAM.exists():
        sys.exit(f"tests.py: there is no {PROGRAM}: ./start makes it, or name another")
    unittest.main()
