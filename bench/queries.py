"""Queries over the index, in turns with a scan of columns, CRoaring and the C++ twin."""
import os
import re
import statistics
import subprocess

BENCH = os.path.dirname(os.path.abspath(__file__))
BUILD = os.path.join(BENCH, "build")
TWIN = os.path.join(BUILD, "query")
PROGRAM = os.environ.get("QUERY_BENCH") or os.path.join(BENCH, "..", "crates", "query_bench", "out", "query_bench")
# How often each program is started, in turns, and how often it asks each query then.
TURNS, ROUNDS = 5, "10"
CASES = {"q6": "1994, 0.06, 24", "selective": "1998, 0.09, 2", "wide": "1993, 0.02, 51", "all": "no range",
         "month": "March 1994", "half-month": "1 to 15 March 1994"}
STATES = {"base": "", "unmerged": ", beside 10,000 updates", "merged": ", after a merge of them"}


class Trouble(Exception):
    """Programs that disagree, or one that fails."""


def run(program, words, environment):
    """What one run answered, and what it told, by state and case and name."""
    done = subprocess.run([program, *words, "--times"], capture_output=True, text=True, env=environment)
    if done.returncode != 0:
        raise Trouble(f"{os.path.basename(program)}: status {done.returncode}: {done.stderr[:200]}")
    told = {}
    for line in done.stderr.splitlines():
        of = re.match(r"(\w+) ([\w-]+) ", line + " ")
        for name, number in re.findall(r"(\w+)=(\d+(?:\.\d+)?)", line):
            told.setdefault((*(of.groups() if of else ("", "")), name), []).append(float(number))
    return done.stdout, told


def in_turns(words, environment):
    """All that both programs told in all turns; they have to answer the same."""
    told = {}
    for _ in range(TURNS):
        (expected, twin), (answered, program) = run(TWIN, words, environment), run(PROGRAM, words, environment)
        if expected != answered:
            raise Trouble(f"the answers differ: {expected!r} and {answered!r}")
        for numbers in (twin, program):
            for key, values in numbers.items():
                told.setdefault(key, []).extend(values)
    return told


def one(path, query, environment):
    """The lines of one query 6."""
    told = in_turns([path, ROUNDS, *query], environment)
    least = {name: min(values) for (state, _, name), values in told.items() if state in ("", "base")}
    print(f"build_ms={least['build'] * 1e3:.1f}")
    print(f"q6_ms={least['sum_ns'] / 1e6:.3f}")
    print(f"q6_median_ms={statistics.median(told['base', 'q6', 'sum_median_ns']) / 1e6:.3f}")
    print(f"count_ms={least['count_ns'] / 1e6:.3f}")
    print(f"scan_ms={least['scan_ns'] / 1e6:.3f}")
    print(f"ratio={least['sum_ns'] / least['scan_ns']:.2f}")
    print(f"bytes={least['bytes']:.0f}")


def table(scale, path, environment):
    """Rows of the table of all queries: milliseconds, the fastest of all rounds of all turns."""
    told = {key: min(values) for key, values in in_turns([path, ROUNDS], environment).items()}
    for state, when in STATES.items():
        for case, query in CASES.items():
            scan, own, count = (told[state, case, name] / 1e6 for name in ("scan_ns", "sum_ns", "count_ns"))
            twin, twin_count, roaring = (told.get((state, case, name), 0) / 1e6
                                         for name in ("twin_ns", "twin_count_ns", "roaring_ns"))
            cells = [scale, query + when, f"{scan:.2f}", f"{roaring:.2f}" if roaring else "", f"{twin:.2f}" if twin else "",
                     f"{own:.2f}", f"{own / scan:.2f}", f"{own / twin:.2f}" if twin else "", f"{count:.2f}",
                     f"{count / scan:.2f}", f"{count / twin_count:.2f}" if twin_count else ""]
            print("| " + " | ".join(cells) + " |", flush=True)
