"""What the measurements share: where the programs are, and the time and memory of a run.

Times are seconds of the processor, which other work on the machine changes less than those of the clock. A figure is the
least of some runs that take a second or more together, and the cases that are compared take turns, so that a machine that
slows down slows all of them.
"""
import os
import re
import subprocess
import sys

TOP = os.path.dirname(os.path.dirname(os.path.abspath(__file__)))
TIME = "/usr/bin/time"
RUNS = 5
SECONDS = 1.0


def crate(name):
    return os.path.join(TOP, "crates", name)


def stop(why):
    sys.exit("%s: %s" % (os.path.join("bench", os.path.basename(sys.argv[0])), why))


def planner():
    """The proved program."""
    path = os.path.join(crate("planner"), "out", "planner")
    if not os.path.exists(path):
        stop("no program yet: ./prove builds it")
    return path


def built(name):
    """The program of a crate; where it is missing or older than its sources it is proved first."""
    subprocess.run(["rt", "run"], cwd=crate(name), stdout=subprocess.DEVNULL, stderr=subprocess.DEVNULL)
    path = os.path.join(crate(name), "out", name)
    if not os.path.exists(path):
        stop("the program was not built; rt run in crates/%s says why" % name)
    return path


def machine():
    """The processors and the load, for the first line of what is printed."""
    with open("/proc/loadavg") as file:
        return "processors %d, load %s" % (os.cpu_count(), " ".join(file.read().split()[:3]))


def run(words):
    """Seconds of the processor, what was printed, and the status of one run."""
    child = subprocess.Popen(words, stdout=subprocess.PIPE, stderr=subprocess.DEVNULL)
    with child.stdout as out:
        printed = out.read().decode()
    _, status, usage = os.wait4(child.pid, 0)
    child.returncode = os.waitstatus_to_exitcode(status)
    return usage.ru_utime + usage.ru_stime, printed, child.returncode


def seconds(words, wanted):
    """Seconds of the processor of one run, which must print what is wanted."""
    spent, printed, status = run(words)
    if printed != wanted:
        stop("%s printed %r, status %d" % (words, printed, status))
    return spent


def callgrind(words, wanted, folder):
    """What callgrind wrote of one run, which must print what is wanted, and its instructions."""
    out = os.path.join(folder, "callgrind.out")
    tool = ["valgrind", "--quiet", "--tool=callgrind", "--callgrind-out-file=" + out]
    done = subprocess.run(tool + words, stdout=subprocess.PIPE, stderr=subprocess.PIPE)
    if done.stdout != wanted:
        stop("%s printed %r, status %d" % (words, done.stdout, done.returncode))
    with open(out) as file:
        text = file.read()
    return text, int(re.search(r"^totals: (\d+)", text, re.M).group(1))


def peak(words):
    """The most kilobytes of one run. It is measured by a small process: a child of this one would begin with what this
    one holds, Python's own ten megabytes."""
    if not os.path.exists(TIME):
        stop("memory is measured by GNU time, and there is no %s" % TIME)
    done = subprocess.run([TIME, "-q", "-f", "%M", *words], stdout=subprocess.DEVNULL, stderr=subprocess.PIPE)
    return int(done.stderr.split()[-1])


def least_seconds(cases):
    """The least seconds of a run of each case; a case is its words and what they print."""
    spent = {name: [] for name in cases}
    while any(len(times) < RUNS or sum(times) < SECONDS for times in spent.values()):
        for name, (words, wanted) in cases.items():
            if len(spent[name]) < RUNS or sum(spent[name]) < SECONDS:
                spent[name].append(seconds(words, wanted))
    return {name: min(times) for name, times in spent.items()}
