#!/usr/bin/env python3
"""gate_cost.py [COMMAND ..]: what a gate costs, by crate and kind, in processor seconds.

Runs the command, by default .ci/run at the top of the repository, and reads twice a second, off the system's list of
processes, how much processor time each of the command's processes has used. A check of the prover is told by its words:
its crate, whether it checks tests, and whether it works on a copy of the crate, as only wrong bodies do. What a process
uses between its last reading and its end isn't seen by crate; the line of all is what the system itself counted for the
command and all that it started, so it is a little more than the sum of the rows. What else the command does (the tests
and programs as they are linked and run) is in the row of the rest.

The command's output goes where it always goes; the table, in the documents' form, to the file GATE_COST names, else to
standard error. Ends with the command's status."""
import collections
import os
import resource
import subprocess
import sys
import threading
import time

TICK = os.sysconf("SC_CLK_TCK")
PROOF, TESTS, WRONG = "proof", "tests", "wrong bodies"


def stat(process):
    """A process's parent, processor seconds and moment of its start."""
    with open(f"/proc/{process}/stat", encoding="utf-8", errors="replace") as file:
        fields = file.read().rpartition(")")[2].split()
    return int(fields[1]), (int(fields[11]) + int(fields[12])) / TICK, fields[19]


def told(process):
    """The crate and the kind of work, where the process is a check of the prover."""
    with open(f"/proc/{process}/cmdline", encoding="utf-8", errors="replace") as file:
        words = file.read().split("\0")
    if "--crate-name" not in words or os.path.basename(words[0]) != "rattle":
        return None
    crate = words[words.index("--crate-name") + 1]
    if "/rt-edit-" in os.readlink(f"/proc/{process}/cwd"):
        return crate, WRONG
    return crate, TESTS if "--test" in words else PROOF


class Sampler(threading.Thread):
    def __init__(self, top):
        super().__init__(daemon=True)
        self.top, self.used, self.names, self.ended = top, {}, {}, threading.Event()

    def look(self):
        parents, found = {}, {}
        for process in filter(str.isdigit, os.listdir("/proc")):
            try:
                parent, used, start = stat(process)
            except (OSError, IndexError, ValueError):
                continue
            parents[process], found[process] = str(parent), ((process, start), used)
        below = {self.top}
        grew = True
        while grew:
            more = {it for it, parent in parents.items() if parent in below and it not in below}
            below |= more
            grew = bool(more)
        for process in below & found.keys():
            key, used = found[process]
            self.used[key] = used
            if self.names.get(key) is None:
                try:
                    self.names[key] = told(process) or self.names.get((parents[process], stat(parents[process])[2]))
                except (OSError, IndexError, ValueError):
                    pass

    def run(self):
        while not self.ended.wait(0.5):
            self.look()


def order():
    with open("crates.txt", encoding="utf-8") as lines:
        names = [line.split("#")[0].partition(":")[0].split() for line in lines]
    return [it[0] for it in names if it]


def table(sampler, all_seconds, clock):
    sums = collections.defaultdict(float)
    for key, used in sampler.used.items():
        sums[sampler.names.get(key)] += used
    rest = all_seconds - sum(used for name, used in sums.items() if name)
    shown = lambda seconds: f"{seconds:.0f}" if seconds >= 0.5 else ""
    rows = ["| crate | proof | tests | wrong bodies, with their base |", "|---|---|---|---|"]
    for crate in order():
        rows.append(f"| `{crate}` | " + " | ".join(shown(sums[crate, kind]) for kind in (PROOF, TESTS, WRONG)) + " |")
    totals = [sum(used for name, used in sums.items() if name and name[1] == kind) for kind in (PROOF, TESTS, WRONG)]
    rows.append("| sums, in minutes | " + " | ".join(f"{it / 60:.0f}" for it in totals) + " |")
    rows += ["", f"All with the rest ({rest / 60:.0f}): {all_seconds / 60:.0f} processor minutes;"
             f" {clock / 60:.0f} minutes by the clock on {len(os.sched_getaffinity(0))} processors."]
    return "\n".join(rows) + "\n"


def main(words):
    if words and words[0] in ("-h", "--help"):
        print(__doc__)
        return 2
    began = time.time()
    command = subprocess.Popen(words or [".ci/run"])
    sampler = Sampler(str(command.pid))
    sampler.start()
    status = command.wait()
    sampler.ended.set()
    sampler.join()
    used = resource.getrusage(resource.RUSAGE_CHILDREN)
    text = table(sampler, used.ru_utime + used.ru_stime, time.time() - began)
    if os.environ.get("GATE_COST"):
        with open(os.environ["GATE_COST"], "w", encoding="utf-8") as file:
            file.write(text)
    else:
        sys.stderr.write(text)
    return status if status >= 0 else 1


sys.exit(main(sys.argv[1:]))
