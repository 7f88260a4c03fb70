"""The peers that `run` measures: ClickHouse in three forms, PostgreSQL and SQLite, each behind the same calls.

    missing()   the Debian package that is to be installed first, or None
    start()     starts the peer with an empty database in a folder of its own; no service of the system is used
    load(data)  reads the five .tbl files of a folder
    rows(sql)   one query's rows, each with its fields joined by '|'
    stop()      ends what start() started
    version     as the peer tells it, once started
    process     the number of the process that answers (its children count with it)
"""
import glob
import http.client
import os
import pathlib
import shlex
import shutil
import signal
import socket
import subprocess
import time
import urllib.parse

from common import HERE

TABLES = {"customer": "customer", "supplier": "supplier", "part": "part", "date": "dwdate", "lineorder": "lineorder"}


def without_last_bar(path):
    """The shell command that writes a .tbl file without the bar that ends each of its lines."""
    return f"sed 's/|$//' {shlex.quote(str(path))}"


def await_answer(answers, name):
    """Waits until answers() holds, at most half a minute."""
    for _ in range(300):
        if answers():
            return
        time.sleep(0.1)
    raise RuntimeError(f"{name} does not start")


class Client:
    """A command-line client that is kept open: what it prints from a request to the end mark is the answer."""
    END = "END_OF_ANSWER"

    def __init__(self, words, echo):
        self.echo = echo
        self.process = subprocess.Popen(words, stdin=subprocess.PIPE, stdout=subprocess.PIPE, text=True)

    def ask(self, text):
        self.process.stdin.write(f"{text}\n{self.echo} {self.END}\n")
        self.process.stdin.flush()
        rows = []
        for row in self.process.stdout:
            if row == self.END + "\n":
                return rows
            rows.append(row[:-1])
        raise RuntimeError(f"{self.process.args[0]} gave up")

    def close(self):
        self.process.stdin.close()
        self.process.wait()


class Peer:
    client = server = None      # a client that is kept open and a server, where there are any
    stop_signal = signal.SIGTERM

    def __init__(self, folder, threads):
        """The folder is the peer's own, and empty; threads is how many it may use."""
        self.folder, self.threads = folder, threads

    def rows(self, sql):
        return self.client.ask(sql)

    def stop(self):
        if self.client:
            self.client.close()
        if self.server:
            self.server.send_signal(self.stop_signal)
            self.server.wait()


class Sqlite(Peer):
    title, queries = "SQLite", "queries.sql"

    @staticmethod
    def missing():
        return None if shutil.which("sqlite3") else "sqlite3"

    def start(self):
        self.client = Client(["sqlite3", "-batch", "-bail", self.folder / "base"], ".print")
        self.process = self.client.process.pid
        self.rows(".nullvalue NULL")
        self.rows("PRAGMA cache_size = -262144; PRAGMA mmap_size = 2147418112; PRAGMA journal_mode = OFF; PRAGMA synchronous = OFF;")
        self.version = self.rows("SELECT sqlite_version();")[0]

    def load(self, data):
        self.rows((HERE / "schema_sqlite.sql").read_text())
        for file, table in TABLES.items():
            source = without_last_bar(data / f"{file}.tbl").replace("\\", "\\\\").replace('"', '\\"')
            self.rows(f'.import "|{source}" {table}')
        self.rows("ANALYZE;")
        with open(self.folder / "base") as base:
            os.fsync(base)


class Postgres(Peer):
    title, queries = "PostgreSQL", "queries.sql"
    stop_signal = signal.SIGINT         # disconnects clients, then ends

    @staticmethod
    def programs():
        """The folder of the newest release's programs, or None."""
        found = glob.glob("/usr/lib/postgresql/*/bin/initdb")
        return pathlib.Path(max(found, key=lambda path: float(path.split("/")[4]))).parent if found else None

    @staticmethod
    def missing():
        return None if Postgres.programs() and shutil.which("psql") else "postgresql-15"

    def start(self):
        # PostgreSQL refuses to run as root, so it is then run as its own user.
        user = []
        if os.getuid() == 0:
            shutil.chown(self.folder, "postgres")
            user = ["setpriv", "--reuid=postgres", "--regid=postgres", "--init-groups"]
        subprocess.run([*user, self.programs() / "initdb", "-D", self.folder / "base", "-U", "postgres", "--locale=C",
                        "--encoding=UTF8", "-A", "trust"], check=True, stdout=subprocess.DEVNULL, cwd="/")
        settings = {
            "listen_addresses": "", "unix_socket_directories": self.folder, "shared_buffers": "1GB", "work_mem": "64MB",
            "maintenance_work_mem": "256MB", "effective_cache_size": "6GB", "random_page_cost": "1.1",
            "max_wal_size": "4GB", "jit": "off", "max_parallel_workers": self.threads,
            "max_parallel_workers_per_gather": self.threads if self.threads > 1 else 0}
        words = [f"-c{name}={value}" for name, value in settings.items()]
        with open(self.folder / "log", "w") as log:
            self.server = subprocess.Popen([*user, self.programs() / "postgres", "-D", self.folder / "base", *words],
                                           stderr=log, cwd="/")
        self.process = self.server.pid
        await_answer(lambda: subprocess.run(["pg_isready", "-q", "-h", self.folder]).returncode == 0, self.title)
        self.client = Client(["psql", "-XqAt", "-v", "ON_ERROR_STOP=1", "-P", "null=NULL", "-h", self.folder,
                              "-U", "postgres", "postgres"], "\\echo")
        self.version = self.rows("SHOW server_version;")[0].split()[0]

    def load(self, data):
        self.rows((HERE / "schema_pg.sql").read_text())
        for file, table in TABLES.items():
            source = without_last_bar(data / f"{file}.tbl").replace("'", "''")
            self.rows(f"\\copy {table} FROM PROGRAM '{source}' WITH (DELIMITER '|')")
        self.rows((HERE / "keys_pg.sql").read_text())
        self.rows("CHECKPOINT;")


class ClickHouse(Peer):
    title, queries = "ClickHouse", "queries_clickhouse.sql"

    @staticmethod
    def missing():
        return None if shutil.which("clickhouse-server") else "clickhouse-server"

    def start(self):
        self.choose_ports()
        self.launch()

    def choose_ports(self):
        """Two ports of the loopback address that nobody listens at."""
        with socket.socket() as one, socket.socket() as other:
            one.bind(("127.0.0.1", 0))
            other.bind(("127.0.0.1", 0))
            self.port, self.tcp_port = one.getsockname()[1], other.getsockname()[1]

    def launch(self, settings=""):
        """Starts the server at its ports; settings are more of its configuration, as XML."""
        (self.folder / "config.xml").write_text(f"""<yandex>
    <logger><level>warning</level><log>{self.folder}/log</log><errorlog>{self.folder}/errors</errorlog></logger>
    <listen_host>127.0.0.1</listen_host><http_port>{self.port}</http_port><tcp_port>{self.tcp_port}</tcp_port>
    <path>{self.folder}/data/</path><tmp_path>{self.folder}/tmp/</tmp_path>
    <users_config>users.xml</users_config><default_profile>default</default_profile>
    <default_database>default</default_database><mark_cache_size>268435456</mark_cache_size>
    {settings}
</yandex>
""")
        (self.folder / "users.xml").write_text(f"""<yandex>
    <profiles><default>
        <max_memory_usage>4000000000</max_memory_usage><max_threads>{self.threads}</max_threads>
        <allow_experimental_low_cardinality_type>1</allow_experimental_low_cardinality_type>
    </default></profiles>
    <users><default>
        <password></password><networks><ip>127.0.0.1</ip></networks><profile>default</profile><quota>default</quota>
    </default></users>
    <quotas><default></default></quotas>
</yandex>
""")
        with open(self.folder / "out", "w") as out:
            self.server = subprocess.Popen(["clickhouse-server", f"--config-file={self.folder}/config.xml"],
                                           stdout=out, stderr=out, cwd=self.folder)
        self.process = self.server.pid
        await_answer(self.answers, self.title)
        self.version = self.rows("SELECT version()")[0]

    def answers(self):
        try:
            return self.rows("SELECT 1") == ["1"]
        except OSError:
            return False

    def post(self, body, **words):
        """One request over HTTP; the body is a text or an open file."""
        connection = http.client.HTTPConnection("127.0.0.1", self.port, blocksize=1 << 20)
        connection.request("POST", "/?" + urllib.parse.urlencode(words), body.encode() if isinstance(body, str) else body)
        reply = connection.getresponse()
        text = reply.read().decode()
        connection.close()
        if reply.status != 200:
            raise RuntimeError(f"{self.title}: {text}")
        return text

    def script(self, name):
        """Runs the statements of a file, one request each."""
        for statement in (HERE / name).read_text().split(";"):
            if statement.strip():
                self.post(statement)

    def load(self, data):
        self.script("schema_clickhouse.sql")
        for file in TABLES:
            self.insert(data, file)

    def insert(self, data, file, **words):
        """Loads one file into its table."""
        with open(data / f"{file}.tbl", "rb") as rows:
            self.post(rows, query=f"INSERT INTO {TABLES[file]} FORMAT CSV", format_csv_delimiter="|", **words)

    def rows(self, sql):
        text = self.post(sql.rstrip().rstrip(";") + "\nFORMAT TabSeparated")
        return [row.replace("\\N", "NULL").replace("\t", "|") for row in text.splitlines()]


class ClickHouseFlat(ClickHouse):
    """The same server with one wide table that is made from the five."""
    title, queries = "ClickHouse, wide", "queries_clickhouse_flat.sql"
    order = "d_year, lo_orderdate, lo_orderkey, lo_linenumber"

    def load(self, data):
        super().load(data)
        self.script("flat_clickhouse.sql")

    def script(self, name):
        """Runs the statements of a file, one request each; the wide table is made in this form's order."""
        given = f"ORDER BY ({ClickHouseFlat.order})"
        for statement in (HERE / name).read_text().split(";"):
            if statement.strip():
                self.post(statement.replace(given, f"ORDER BY ({self.order})"))


class ClickHouseLaid(ClickHouseFlat):
    """The wide table in the order in which ours lays loaded lines."""
    title = "ClickHouse, wide, our order"
    order = "s_region, c_region, d_yearmonthnum"


PEERS = {"clickhouse": ClickHouse, "clickhouse-flat": ClickHouseFlat, "clickhouse-laid": ClickHouseLaid,
         "pg": Postgres, "sqlite": Sqlite}
