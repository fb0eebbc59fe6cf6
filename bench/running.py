"""What the measures of whole programs share: generated files, runs of a program, and the machine's name."""
import os
import re
import resource
import subprocess
import tempfile
import time

BENCH = os.path.dirname(os.path.abspath(__file__))
BUILD = os.path.join(BENCH, "build")
COMPILER, CXX = os.environ.get("CC", "cc"), os.environ.get("CXX", "c++")
# The level of processor that the program is built for.
FLAGS = ["-O3", "-march=x86-64-v2"]
CUBIT = os.environ.get("CUBIT") or os.path.join(BENCH, "..", "crates", "cubit", "out", "cubit")
# What ./cubit gives the program where its user has not set the variable.
TUNABLES = "GLIBC_TUNABLES"
LARGE_PAGES = "glibc.malloc.hugetlb=1:glibc.malloc.top_pad=16777216"


def data_file(scale, options):
    """The path of the generated file, which is made where it is missing or older than its generator."""
    path = os.path.join(BUILD, f"lineitem-{scale}{'-shuffled' if options else ''}.tbl")
    made_by = os.path.join(BENCH, "lineitem_gen.c")
    if not os.path.exists(path) or os.path.getmtime(path) < os.path.getmtime(made_by):
        # A run that is broken off must leave no half file under this name.
        with open(path + ".part", "wb") as file:
            subprocess.run([os.path.join(BUILD, "lineitem_gen"), scale, *options], stdout=file, check=True)
        os.replace(path + ".part", path)
    return path


def warm(path):
    """Brings the file into the page cache; its bytes and lines."""
    size, lines = 0, 0
    with open(path, "rb", buffering=0) as file:
        while piece := file.read(1 << 20):
            size, lines = size + len(piece), lines + piece.count(b"\n")
    return size, lines


def measured(words, environment):
    """One run: status, seconds, peak resident bytes, standard output and standard error."""
    with tempfile.TemporaryFile() as out, tempfile.TemporaryFile() as err:
        began = time.perf_counter()
        child = subprocess.Popen(words, stdin=subprocess.DEVNULL, stdout=out, stderr=err, env=environment)
        _, status, usage = os.wait4(child.pid, 0)
        seconds = time.perf_counter() - began
        child.returncode = os.waitstatus_to_exitcode(status)
        out.seek(0)
        err.seek(0)
        return (child.returncode, seconds, usage.ru_maxrss * 1024,
                out.read().decode(errors="replace").strip(), err.read().decode(errors="replace").strip())


def peak_text(peak):
    # The system counts the memory of the process that starts a program as the program's own.
    floor = resource.getrusage(resource.RUSAGE_SELF).ru_maxrss * 1024
    return f"{peak / 1e6:,.0f}" if peak > floor else f"below {floor / 1e6:,.0f}"


def machine():
    with open("/proc/cpuinfo") as file:
        models = re.findall(r"^model name\s*: (.*)$", file.read(), re.M)
    return f"{os.cpu_count()} cores, {models[0] if models else 'unknown processor'}"
