"""The tools that answer query 6 over the same file: which of them this machine has, and how each is called."""
import dataclasses
import glob
import os
import pwd
import re
import shutil
import socket
import subprocess
import tempfile
import time
from collections.abc import Callable

SLOW_RUNS = 3
# Servers often stand outside of the usual folders.
FOLDERS = [*os.get_exec_path(), "/usr/sbin", *glob.glob("/usr/lib/postgresql/*/bin")]

# Each peer prints the count and the sum in units of 0.0001. Money is rounded to whole hundredths first, so that no
# answer depends on the order of its sums.
MAWK = r"""
$11 >= "1994-01-01" && $11 < "1995-01-01" && $5 < 24 {
    discount = int($7 * 100 + 0.5)
    if (5 <= discount && discount <= 7) { count++; sum += int($6 * 100 + 0.5) * discount }
}
END { printf "%d %.0f\n", count, sum }
"""
COLUMNS = {
    "orderkey": "whole", "partkey": "whole", "suppkey": "whole", "linenumber": "whole", "quantity": "whole",
    "extendedprice": "money", "discount": "money", "tax": "money", "returnflag": "text", "linestatus": "text",
    "shipdate": "date", "commitdate": "date", "receiptdate": "date", "shipinstruct": "text", "shipmode": "text",
    "comment": "text",
}
QUERY = """SELECT count(*), sum(CAST(round(extendedprice * 100) AS {whole}) * CAST(round(discount * 100) AS {whole}))
FROM {table} WHERE shipdate >= '1994-01-01' AND shipdate < '1995-01-01' AND quantity < 24
AND round(discount * 100) BETWEEN 5 AND 7"""

SQLITE = {"whole": "INTEGER", "money": "REAL", "text": "TEXT", "date": "TEXT"}
POSTGRES = {"whole": "BIGINT", "money": "DOUBLE PRECISION", "text": "TEXT", "date": "DATE"}
CLICKHOUSE = {"whole": "Int64", "money": "Float64", "text": "String", "date": "Date"}

# The server gets no more than it needs to hold one table.
POSTGRES_SETTINGS = ["listen_addresses=", "fsync=off", "autovacuum=off", "shared_buffers=1GB"]
CLICKHOUSE_SETTINGS = """<yandex>
<logger><level>error</level><console>1</console></logger>
<listen_host>127.0.0.1</listen_host><tcp_port>{port}</tcp_port>
<path>{folder}/data/</path><tmp_path>{folder}/scratch/</tmp_path><mark_cache_size>100000000</mark_cache_size>
<users_config>config.xml</users_config><profiles><default/></profiles><quotas><default/></quotas>
<users><default><password/><networks><ip>127.0.0.1</ip></networks>
<profile>default</profile><quota>default</quota></default></users>
</yandex>
"""
CLICKHOUSE_CALLS = r"""set -e
port=$1 file=$2
clickhouse-client --port "$port" --multiquery --query \
    "DROP TABLE IF EXISTS lineitem; CREATE TABLE lineitem ({columns}) ENGINE = Memory"
clickhouse-client --port "$port" --format_csv_delimiter "|" --query "INSERT INTO lineitem FORMAT CSV" <"$file"
clickhouse-client --port "$port" --query "{query}"
"""


def line_of_peer(text):
    count, total = map(int, re.findall(r"\d+", text))
    return f"front=0 count={count} sum={total // 10000}.{total % 10000:04}"


@dataclasses.dataclass
class Program:
    """A program to measure."""
    name: str
    # What it is called by, for a file.
    words: Callable[[str], list[str]]
    runs: int
    # How its answer reads as the program's line.
    as_line: Callable[[str], str] = line_of_peer
    takes_shuffled: bool = False
    # The process's own where none is given.
    environment: dict[str, str] | None = None
    # The memory of a client says nothing of its server's.
    is_client: bool = False


def columns(kinds):
    return ", ".join(f"{name} {kinds[kind]}" for name, kind in COLUMNS.items())


def query(kinds, table="lineitem"):
    return QUERY.format(whole=kinds["whole"], table=table)


def found(name):
    """The path of a program, or None."""
    return shutil.which(name, path=os.pathsep.join(FOLDERS))


def version(name, *words):
    """The first line that the program says of itself, cut after its number."""
    said = subprocess.run([name, *words], capture_output=True, text=True).stdout
    number = re.search(r"\d+(\.\d+)+", said)
    return f"{name} {number[0]}" if number else name


def mawk(stack):
    if not found("mawk"):
        return None
    return Program(version("mawk", "-W", "version"), lambda path: ["mawk", "-F|", MAWK, path], SLOW_RUNS)


def sqlite(stack):
    if not found("sqlite3"):
        return None
    # The last bar of a line makes one more column.
    table = f"CREATE TABLE lineitem ({columns(SQLITE)}, after_last_bar TEXT)"
    return Program(version("sqlite3", "--version"), lambda path: [
        "sqlite3", ":memory:", table, ".separator |", f".import '{path}' lineitem", query(SQLITE)], 1)


def clickhouse_local(stack):
    if not found("clickhouse-local"):
        return None
    return Program(version("clickhouse-local", "--version"), lambda path: [
        "clickhouse-local", "--file", path, "--input-format", "CSV", "--format_csv_delimiter", "|",
        "--structure", columns(CLICKHOUSE), "--query", query(CLICKHOUSE, "table")], SLOW_RUNS)


def unprivileged():
    """How to start a server that does not run as root."""
    if os.geteuid() != 0:
        return {}
    nobody = pwd.getpwnam("nobody")
    return {"user": nobody.pw_uid, "group": nobody.pw_gid, "extra_groups": []}


def scratch_folder(stack):
    folder = tempfile.mkdtemp(prefix="bench-")
    stack.callback(shutil.rmtree, folder, ignore_errors=True)
    if os.geteuid() == 0:
        shutil.chown(folder, "nobody")
    return folder


def stop(server):
    server.terminate()
    try:
        server.wait(60)
    except subprocess.TimeoutExpired:
        server.kill()
        server.wait()


def starts(stack, folder, server_words, ready_words):
    """Starts a server, which runs until the stack is left. Whether it came to answer."""
    with open(os.path.join(folder, "log"), "wb") as log:
        server = subprocess.Popen(server_words, stdin=subprocess.DEVNULL, stdout=log, stderr=log, cwd=folder,
                                  **unprivileged())
    stack.callback(stop, server)
    for _ in range(300):
        if subprocess.run(ready_words, capture_output=True).returncode == 0:
            return True
        if server.poll() is not None:
            return False
        time.sleep(0.1)
    return False


def postgres(stack):
    if not (found("psql") and found("initdb") and found("postgres")):
        return None
    folder = scratch_folder(stack)
    data = os.path.join(folder, "data")
    subprocess.run([found("initdb"), "-D", data, "-U", "bench", "-A", "trust", "--locale=C", "--no-sync"],
                   cwd=folder, capture_output=True, **unprivileged())
    psql = ["psql", "-X", "-q", "-At", "-v", "ON_ERROR_STOP=1", "-h", folder, "-U", "bench", "-d", "postgres"]
    settings = [word for setting in POSTGRES_SETTINGS for word in ("-c", setting)]
    if not starts(stack, folder, [found("postgres"), "-D", data, "-k", folder, *settings], [*psql, "-c", "SELECT 1"]):
        return None
    table = f"CREATE UNLOGGED TABLE lineitem ({columns(POSTGRES)}, after_last_bar TEXT)"
    return Program(version("psql", "--version").replace("psql", "PostgreSQL"), lambda path: [
        *psql, "-c", "DROP TABLE IF EXISTS lineitem", "-c", table,
        "-c", f"\\copy lineitem FROM '{path}' (DELIMITER '|')", "-c", query(POSTGRES)], 1, is_client=True)


def free_port():
    with socket.socket() as probe:
        probe.bind(("127.0.0.1", 0))
        return str(probe.getsockname()[1])


def clickhouse_server(stack):
    if not (found("clickhouse-server") and found("clickhouse-client")):
        return None
    folder, port = scratch_folder(stack), free_port()
    with open(os.path.join(folder, "config.xml"), "w") as file:
        file.write(CLICKHOUSE_SETTINGS.format(folder=folder, port=port))
    if not starts(stack, folder, [found("clickhouse-server"), f"--config-file={folder}/config.xml"],
                  ["clickhouse-client", "--port", port, "--query", "SELECT 1"]):
        return None
    calls = CLICKHOUSE_CALLS.format(columns=columns(CLICKHOUSE), query=query(CLICKHOUSE))
    return Program(version("clickhouse-client", "--version").replace("clickhouse-client", "ClickHouse"),
                   lambda path: ["sh", "-c", calls, "sh", port, path], SLOW_RUNS, is_client=True)


def peers(stack):
    """The peers that this machine has, and the names of those that it has not. Servers run until the stack is left."""
    here = {
        "mawk": mawk(stack),
        "sqlite3": sqlite(stack),
        "ClickHouse": clickhouse_local(stack) or clickhouse_server(stack),
        "PostgreSQL": postgres(stack),
    }
    return [program for program in here.values() if program], [name for name, program in here.items() if not program]
