"""Scripts of changes, look-ups, queries and merges, run by the program and by what else could do the same."""
import datetime
import os
import random
import re
import statistics
import subprocess

from running import (BENCH, BUILD, COMPILER, CUBIT, CXX, FLAGS, LARGE_PAGES, TUNABLES, data_file, machine, measured,
                     peak_text, warm)

RUNS = 5
TWIN = os.path.join(BUILD, "session")
# By the words of the twin's ways.
NAMES = {"index": "the same index in C++", "columns": "columns and a hash table in C++", "sqlite": "SQLite in memory"}
HAS_VERSIONS = NAMES["index"], "cubit run"
# How many commands a script has at a scale, and how often it queries and merges.
COMMANDS, MOST, EACH_QUERY, EACH_MERGE = {"0.1": 20000}, 2000, 100, 2000
# The highest order of a scale is below this number times the scale.
ORDERS = 6_000_001


def build():
    part = os.path.join(BUILD, "reader.o")
    subprocess.run([COMPILER, *FLAGS, "-DREADER", "-c", "-o", part, os.path.join(BENCH, "yardstick.c")], check=True)
    words = [CXX, "-std=c++20", *FLAGS, "-o", TWIN, os.path.join(BENCH, "session.cpp"), part]
    if subprocess.run([*words, "-DSQLITE", "-lsqlite3"], stderr=subprocess.DEVNULL).returncode == 0:
        return ["index", "columns", "sqlite"]
    # The library may be there without what a compiler needs of it.
    subprocess.run(words, check=True)
    return ["index", "columns"]


class Drawn:
    """Commands that are drawn, over keys of the file."""

    def __init__(self, path, scale):
        self.random = random.Random(1)
        self.size, self.file = os.path.getsize(path), open(path, "rb")
        self.next_order = int(ORDERS * max(float(scale), 1)) + 1

    def key(self):
        self.file.seek(self.random.randrange(max(1, self.size - 400)))
        self.file.readline()
        fields = self.file.readline().split(b"|")
        return f"{fields[0].decode()} {fields[3].decode()}"

    def tuple(self):
        draw = self.random.randrange
        price, day = 90000 + draw(10000000), datetime.date(1992, 1, 1) + datetime.timedelta(draw(2557))
        return (f"{1 + draw(50)} {price // 100}.{price % 100:02} 0.{draw(11):02} 0.{draw(9):02} "
                f"{'ANR'[draw(3)]} {'FO'[draw(2)]} {day}")

    def command(self, number):
        if number % EACH_MERGE == 0:
            return "merge"
        if number % EACH_QUERY == 0:
            draw = self.random.randrange
            return f"q6 {1993 + draw(5)} 0.{2 + draw(8):02} {24 + draw(2)}"
        kind = self.random.random()
        if kind < 0.2:
            self.next_order += 1
            return f"insert {self.next_order} 1 {self.tuple()}"
        if kind < 0.6:
            return f"update {self.key()} {self.tuple()}"
        return f"{'delete' if kind < 0.75 else 'lookup'} {self.key()}"


def script_file(path, scale):
    drawn = Drawn(path, scale)
    name = os.path.join(BUILD, f"session-{scale}.script")
    with open(name, "w") as file:
        for number in range(1, COMMANDS.get(scale, MOST) + 1):
            file.write(drawn.command(number) + "\n")
    return name


def without_versions(report):
    """The report without what only an index with versions can tell."""
    return re.sub(r" patched=\d+| merged=\d+ fresh=\d+ busy=\d+", "", report)


def programs_of(ways, path, script):
    tunables = {TUNABLES: LARGE_PAGES, **os.environ}
    programs = [(NAMES[way], [TWIN, way, path, script], RUNS if way != "sqlite" else 1, tunables) for way in ways]
    if os.access(CUBIT, os.X_OK):
        programs.append(("cubit run", [CUBIT, "run", path, script], RUNS, tunables))
    return programs


def runs_of(programs, troubles):
    """Seconds and peak bytes by program. The programs take turns, so that a busy minute falls on all of them."""
    times, whole, bare = {}, set(), set()
    for turn in range(RUNS):
        for name, words, runs, environment in programs:
            if turn >= runs:
                continue
            status, seconds, peak, out, err = measured(words, environment)
            if status != 0:
                troubles.add(f"{name}: status {status}: {err[:200]}")
                continue
            times.setdefault(name, []).append((seconds, peak))
            bare.add(without_versions(out))
            if name in HAS_VERSIONS:
                whole.add(out)
    if len(whole) > 1 or len(bare) > 1:
        troubles.add("reports differ")
    return times


def measure(scales):
    """Prints a table; the exit status."""
    ways, troubles = build(), set()
    print("| scale | commands | program | runs | wall seconds | to the same index in C++ | peak MB |")
    print("|---|---|---|---|---|---|---|")
    for scale in scales:
        path = data_file(scale, [])
        warm(path)
        script = script_file(path, scale)
        times = runs_of(programs_of(ways, path, script), troubles)
        yardstick = statistics.median(seconds for seconds, _ in times[NAMES["index"]])
        for name, runs in times.items():
            median = statistics.median(seconds for seconds, _ in runs)
            print(f"| {scale} | {COMMANDS.get(scale, MOST):,} | {name} | {len(runs)} | {median:.3f} "
                  f"| {median / yardstick:.2f} | {peak_text(max(peak for _, peak in runs))} |", flush=True)
    print(f"\nMachine: {machine()}, load {os.getloadavg()[0]:.1f}, {datetime.date.today()}.")
    for trouble in sorted(troubles):
        print("TROUBLE: " + trouble)
    return 1 if troubles else 0
