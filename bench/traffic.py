"""Random requests for `soak`: scripts of refreshes and questions over the tables of a folder, from a seed.

Clients share a few keys of orders, so that they get into each other's way: what one adds, another finds there. Some
lines name a customer, supplier, part or date that is not there, and some constants no value that is there.

Words in the environment: STARS, the share of star questions in all (by default 0.2); BLOCKS, the share of questions
that are asked in blocks, where a script asks for blocks (by default a third); STANDING, the share of questions that stand,
where a server has some (by default a half)."""
import os

from stars import Stars

GREATEST = 2**32 - 1            # amount, and number in a question
GREATEST_KEY = 2**63 - 1        # that SQLite can keep too
UNKNOWN = GREATEST_KEY - 7      # key of no row
COMMON_KEYS = 64
STAR_ROWS = 5000                # that a star question may have groups for
STARS = float(os.environ.get("STARS", 0.2))
BLOCKS = float(os.environ.get("BLOCKS", 1 / 3))
STANDING = float(os.environ.get("STANDING", 1 / 2))
SIZES = [1, 2, 3, 5, 13, 16]    # of blocks, each as often as another
TEXTS = ["1-URGENT", "5-LOW", "AIR", "", " leading", "Überlänge ✓", "x" * 64, 'a "quoted" word', "NULL", "-0"]

# The constants of each query, in the order in which a question gives them.
CONSTANTS = {
    "Q1.1": "year discount discount quantity quantity", "Q1.2": "month discount discount quantity quantity",
    "Q1.3": "week year discount discount quantity quantity", "Q2.1": "category region", "Q2.2": "brand brand region",
    "Q2.3": "brand region", "Q3.1": "region region year year", "Q3.2": "nation nation year year",
    "Q3.3": "city city city city year year", "Q3.4": "city city city city month_name",
    "Q4.1": "region region maker maker", "Q4.2": "region region maker maker year year",
    "Q4.3": "region nation year year category"}
NUMBERS = {"year", "month", "week", "discount", "quantity"}


class Tables:
    """What requests are made of: the keys of each table, and the values that questions look for."""

    def __init__(self, data):
        def rows(name):
            with open(data / f"{name}.tbl") as lines:
                return [line.rstrip("\n").split("|") for line in lines]

        def column(table, place):
            return sorted({row[place] for row in table})

        parties = rows("customer") + rows("supplier")
        parts, dates = rows("part"), rows("date")
        self.customers = [int(row[0]) for row in rows("customer")]
        self.suppliers = [int(row[0]) for row in rows("supplier")]
        self.parts = [int(row[0]) for row in parts]
        self.dates = [int(row[0]) for row in dates]
        with open(data / "lineorder.tbl") as lines:
            self.orders = sorted({int(line.partition("|")[0]) for line in lines})
        self.values = {
            "city": column(parties, 3), "nation": column(parties, 4), "region": column(parties, 5),
            "maker": column(parts, 2), "category": column(parts, 3), "brand": column(parts, 4),
            "year": column(dates, 4), "month": column(dates, 5), "month_name": column(dates, 6),
            "week": column(dates, 11), "day": column(dates, 0), "day_name": column(dates, 2),
            "month_word": column(dates, 3), "season": column(dates, 12), "holiday": column(dates, 15),
            "segment": column(rows("customer"), 7), "discount": [str(n) for n in range(11)],
            "quantity": [str(n) for n in range(51)]}


class Order:
    """An order that is added or takes another's place; the fields of a line are numbers and texts in the order of the
    table."""

    def __init__(self, word, key, lines):
        self.word, self.key, self.lines = word, key, lines

    def records(self):
        return [self.word, *("line|" + "|".join(map(str, line)) for line in self.lines)]


class Withdrawal:
    word = "withdraw"

    def __init__(self, key):
        self.key = key

    def records(self):
        return [f"withdraw|{self.key}"]


class Refresh:
    def __init__(self, actions):
        self.actions = actions

    def records(self):
        return ["begin", *(record for action in self.actions for record in action.records()), "commit"]


class Question:
    """Without constants, it has the benchmark's."""

    def __init__(self, name, constants):
        self.name, self.constants = name, constants

    def records(self):
        return ["|".join(["query", self.name, *self.constants])]


class Block:
    """Questions that are asked in one request."""

    def __init__(self, questions):
        self.questions = questions

    def records(self):
        return ["ask", *(record for question in self.questions for record in question.records()), "answer"]


def make_standing(tables, random, count, file):
    """So many random questions that stand, and the file that a server takes them from. No star question of these has
    more groups than may stand."""
    traffic = Traffic(tables, 0, random)
    standing = [traffic.question() for _ in range(count)]
    file.write_text("".join(f"{record}\n" for question in standing for record in question.records()), encoding="utf-8")
    return standing


class Traffic:
    """The requests of one client, in order, from its own source of random numbers. Where it has blocks, a share BLOCKS
    of its questions is asked in them; where questions stand, a share STANDING of its questions is of these."""

    def __init__(self, tables, client, random, has_blocks=False, standing=()):
        share, size = BLOCKS if has_blocks else 0, sum(SIZES) / len(SIZES)
        self.blocks = share / (share + size * (1 - share))        # their share in the requests that ask
        self.tables, self.client, self.random = tables, client, random
        self.stars, self.standing = Stars(tables, random), standing
        self.questions = random.choice([0.05, 0.2, 0.5, 0.9])     # their share in all requests
        self.fresh = 0
        self.own = []           # keys of orders that this client has added, if nobody withdrew them

    def requests(self, count):
        return [self.asking() if self.random.random() < self.questions else self.refresh() for _ in range(count)]

    def chance(self, share):
        return self.random.random() < share

    # ---- refreshes ----

    def refresh(self):
        count = 64 if self.chance(0.002) else self.random.choice([1, 1, 1, 1, 2, 3, 5])
        return Refresh([self.action() for _ in range(count)])

    def action(self):
        word = self.random.choice(["add", "add", "amend", "put", "withdraw", "withdraw"])
        if word == "withdraw":
            return Withdrawal(self.live_key(leaves=True))
        is_new = word == "add" or word == "put" and self.chance(0.5)
        key = self.new_key() if is_new else self.live_key(leaves=False)
        return Order(word, key, self.lines(key))

    def common_key(self):
        """Half of these are in the tables."""
        number = self.random.randrange(COMMON_KEYS)
        return self.tables.orders[number] if number % 2 else GREATEST_KEY - 100 - number

    def new_key(self):
        if self.chance(0.1):
            return self.common_key()
        self.fresh += 1
        key = 10**12 + self.fresh * 16 + self.client
        self.own.append(key)
        return key

    def live_key(self, leaves):
        """A key that should be live, as far as this client knows."""
        if self.chance(0.1):
            return self.common_key()
        if not self.own or self.chance(0.5):
            return self.random.choice(self.tables.orders)
        place = self.random.randrange(len(self.own))
        return self.own.pop(place) if leaves else self.own[place]

    def lines(self, key):
        numbers = self.random.sample(range(1, 8), self.random.randint(1, 7))
        customer, date = self.random.choice(self.tables.customers), self.random.choice(self.tables.dates)
        return [self.line(key, number, customer, date) for number in numbers]

    def line(self, key, number, customer, date):
        def maybe_unknown(row):
            return UNKNOWN if self.chance(0.001) else row

        def amount(usual):
            return self.random.choice([0, GREATEST]) if self.chance(0.01) else self.random.randint(1, usual)

        part, supplier = self.random.choice(self.tables.parts), self.random.choice(self.tables.suppliers)
        if self.chance(0.05):
            customer, date = self.random.choice(self.tables.customers), self.random.choice(self.tables.dates)
        return [key, number, maybe_unknown(customer), maybe_unknown(part), maybe_unknown(supplier), maybe_unknown(date),
                self.random.choice(TEXTS), "0", self.random.randint(1, 50), amount(10_494_950), amount(40_000_000),
                self.random.randint(0, 10), amount(10_494_950), amount(125_939), self.random.randint(0, 8), date,
                self.random.choice(TEXTS)]

    # ---- questions ----

    def asking(self):
        return self.block() if self.blocks and self.chance(self.blocks) else self.question()

    def block(self):
        return Block([self.question() for _ in range(self.random.choice(SIZES))])

    def question(self):
        if self.standing and self.chance(STANDING):
            return self.random.choice(self.standing)
        if self.chance(STARS):
            return Question("star", self.stars.constants(STAR_ROWS))
        name = self.random.choice(list(CONSTANTS))
        return Question(name, [] if self.chance(0.3) else self.constants(CONSTANTS[name].split()))

    def constants(self, kinds):
        """Most pairs of one kind ascend, so that most ranges have something in them."""
        values = [self.constant(kind) for kind in kinds]
        for place, (kind, other) in enumerate(zip(kinds, kinds[1:])):
            if kind == other and self.chance(0.8):
                values[place:place + 2] = sorted(values[place:place + 2], key=int if kind in NUMBERS else None)
        return values

    def constant(self, kind):
        if self.chance(0.03):
            return self.random.choice(["0", "7", str(GREATEST)] if kind in NUMBERS else ["ATLANTIS", "", "mfgr#1"])
        return self.random.choice(self.tables.values[kind])
