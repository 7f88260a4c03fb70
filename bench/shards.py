"""A cluster of ClickHouse servers on this machine, for `cluster`: each has a folder of its own, and ports of the
loopback address."""
from peers import ClickHouse, TABLES

PART = "lineorder_part"     # a server's own lines


def remote_servers(shards):
    """The configuration that names the servers to one another."""
    rows = "".join(f"<shard><replica><host>127.0.0.1</host><port>{shard.tcp_port}</port></replica></shard>"
                   for shard in shards)
    return f"<remote_servers><cluster>{rows}</cluster></remote_servers>"


def make(count, folder):
    return [ClickHouse(folder / str(number), 1) for number in range(1, count + 1)]


def start(shards, port=None):
    """Starts the servers, each of which knows the others: at ports that nobody uses, or from this one on."""
    for number, shard in enumerate(shards):
        shard.folder.mkdir()
        if port is None:
            shard.choose_ports()
        else:
            shard.port, shard.tcp_port = port + number, port + len(shards) + number
    for shard in shards:
        shard.launch(remote_servers(shards))


def load_dimensions(shards, data):
    """Makes the tables on each server, and loads the four dimensions into each."""
    for shard in shards:
        shard.script("schema_clickhouse.sql")
        for file in TABLES:
            if file != "lineorder":
                shard.insert(data, file)


def load_lines(shards, data):
    """Loads each order's lines into one of the servers."""
    for shard in shards:
        shard.post(f"RENAME TABLE lineorder TO {PART}")
        shard.post(f"CREATE TABLE lineorder AS {PART} "
                   f"ENGINE = Distributed(cluster, default, {PART}, intHash64(lo_orderkey))")
    shards[0].insert(data, "lineorder", insert_distributed_sync=1)


def make_signed(shards):
    """Makes the tables of signed lines."""
    for shard in shards:
        shard.script("signed_clickhouse.sql")
        shard.script("signed_shards_clickhouse.sql")
