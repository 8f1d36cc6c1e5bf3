#!/usr/bin/env python3
"""Proves and builds acl2p, where its source or the toolchain isn't what the program was built from.

The program stands at out/acl2p, at the top of the clone. It is built aside, and takes the place of the one that
was there by one rename at the end, so a build that fails or is stopped leaves that one as it was. What changed is
told by content: out/built.json has, for each crate, the sum of its files, of the crates below it and of the
toolchain's name, as it was proved last, and the processor time that this took. One build runs at a time, by a
lock on out/lock. Ends with status 1 where the program isn't built, and says why on standard error.

usage: build.py [LOOK]   where LOOK is the launcher's sum of sizes and times, kept in out/look once all is built."""
import fcntl
import hashlib
import json
import os
import shutil
import signal
import subprocess
import sys
import time

CRATES = os.path.dirname(os.path.abspath(__file__))
TOP = os.path.dirname(CRATES)
OUT = os.path.join(TOP, "out")
PROGRAM = "acl2p"
BUILT = os.path.join(OUT, PROGRAM)
GIGABYTES_EACH = 3  # what the proof of a large crate takes at most


def say(text):
    print(f"acl2p: {text}", file=sys.stderr, flush=True)


def duration(seconds):
    minutes = round(seconds / 60)
    if seconds < 100:
        return f"{seconds:.0f} s"
    return f"{minutes} min" if minutes < 100 else f"{minutes // 60} h {minutes % 60} min"


def dependencies():
    """The crates that the program stands on, lowest first and itself the last, each with those that it names."""
    uses, order = {}, []
    with open(os.path.join(TOP, "crates.txt"), encoding="utf-8") as lines:
        for line in lines:
            name, _, names = line.split("#")[0].partition(":")
            if name.strip():
                uses[name.split()[0]] = names.split()

    def visit(name):
        for used in uses[name]:
            if used in uses and used not in order:
                visit(used)
        order.append(name)

    visit(PROGRAM)
    return {name: uses[name] for name in order}


def toolchain():
    """The toolchain's name, or None where there is none."""
    if shutil.which("rt") is None:
        return None
    told = subprocess.run(["rt", "version"], stdin=subprocess.DEVNULL, capture_output=True, text=True, check=False)
    return told.stdout.strip() or "a toolchain without a name"


def sums(uses, kit):
    """For each crate the sum of all that it is proved from."""
    made = {}
    for name, used in uses.items():
        total = hashlib.sha256(repr((kit, used, [made[it] for it in used if it in made])).encode())
        for part in ("src", "specs", "proofs"):
            for below, folders, files in os.walk(os.path.join(CRATES, name, part)):
                folders.sort()
                for file in sorted(files):
                    path = os.path.join(below, file)
                    with open(path, "rb") as it:
                        total.update(repr((os.path.relpath(path, CRATES), it.read())).encode())
        made[name] = total.hexdigest()
    return made


def read_record():
    try:
        with open(os.path.join(OUT, "built.json"), encoding="utf-8") as it:
            record = json.load(it)
    except (OSError, ValueError):
        record = {}
    return {"kit": record.get("kit"), "program": record.get("program"), "last": record.get("last"), "crates": record.get("crates", {})}


def keep(name, text):
    """Writes a file of out/ in one step."""
    aside = os.path.join(OUT, f"{name}.new")
    with open(aside, "w", encoding="utf-8") as it:
        it.write(text)
    os.replace(aside, os.path.join(OUT, name))


def keep_look(look):
    try:
        if look:
            keep("look", look)
    except OSError:
        pass  # a clone that can't be written is compared by content each time


def jobs():
    memory = os.sysconf("SC_PAGE_SIZE") * os.sysconf("SC_PHYS_PAGES") // 2**30
    return max(1, min(len(os.sched_getaffinity(0)), memory // GIGABYTES_EACH))


def log_of(name):
    return os.path.join(CRATES, name, "out", "build.log")


def start(name):
    """Starts the proof of one crate, whose lower crates are built, in a group of its own."""
    folder = os.path.join(CRATES, name)
    os.makedirs(os.path.join(folder, "out"), exist_ok=True)
    with open(log_of(name), "w", encoding="utf-8") as log:
        words = ["rt", "run"] if name == PROGRAM else ["rt", "lib"]
        return subprocess.Popen(words, cwd=folder, stdin=subprocess.DEVNULL, stdout=log, stderr=log, start_new_session=True)


def made(name):
    """When what the toolchain builds of the crate was written, or None."""
    at = os.path.join(CRATES, name, "out", PROGRAM if name == PROGRAM else os.path.join("rlib", "stamp"))
    return os.stat(at).st_mtime_ns if os.path.exists(at) else None


def has_passed(name, status):
    """Whether the toolchain built the crate. The program is run once it is built, and without words it has to print its usage."""
    if made(name) is None:
        return False
    if name != PROGRAM:
        return status == 0
    with open(log_of(name), encoding="utf-8", errors="replace") as log:
        return status == 2 and "usage: acl2p" in log.read()


def stop(running):
    for process in [it for it, _ in running.values()]:
        try:
            os.killpg(process.pid, signal.SIGTERM)
        except ProcessLookupError:
            pass
    for process in [it for it, _ in running.values()]:
        process.wait()


def failed(name):
    say(f"{name} wasn't proved; all that the toolchain said is in {log_of(name)}, whose end is")
    with open(log_of(name), encoding="utf-8", errors="replace") as log:
        for line in [it.rstrip() for it in log if it.strip()][-3:]:
            say(f"    {line}")
    if os.path.exists(BUILT):
        say("the program that was there is as it was; ACL2P_STALE=1 runs it")


def announce(uses, anew, now, record):
    """Says what is proved anew, why, and how long that took last."""
    before = {name: it.get("sum") for name, it in record["crates"].items()}
    kit = record["kit"]
    if kit is not None and kit != now["kit"]:
        say(f"the toolchain is {now['kit']}; the program was built by {kit}")
    names = ", ".join(anew[:8]) + (f" and {len(anew) - 8} more" if len(anew) > 8 else "")
    say(f"{len(anew)} of {len(uses)} crates are to be proved{' anew' if before else ''}: {names}")
    known = [record["crates"][it]["seconds"] for it in anew if "seconds" in record["crates"].get(it, {})]
    if len(known) == len(anew):
        say(f"when they were proved last that took {duration(sum(known))} of processor time")
    elif known:
        say(f"when {len(known)} of them were proved last that took {duration(sum(known))} of processor time; the others weren't proved here before")
    else:
        say("nothing is known here of how long that takes; from nothing it is an hour or more on four processors")
    if record["last"]:
        say(f"the last build proved {record['last']['crates']} in {duration(record['last']['seconds'])} by the clock")


def prove(uses, anew, now, record):
    """Proves these crates, each once those below it are. Answers whether all are."""
    waiting, running, done, most = list(anew), {}, set(uses) - set(anew), jobs()
    try:
        while waiting or running:
            for name in [it for it in waiting if done.issuperset(set(uses[it]) & set(uses))]:
                if len(running) < most:
                    waiting.remove(name)
                    running[name] = (start(name), made(name))
            time.sleep(0.05)
            for name, (process, before) in list(running.items()):
                pid, status, usage = os.wait4(process.pid, os.WNOHANG)
                if not pid:
                    continue
                process.returncode = os.waitstatus_to_exitcode(status)
                del running[name]
                if not has_passed(name, process.returncode):
                    failed(name)
                    return False
                done.add(name)
                entry = {**record["crates"].get(name, {}), "sum": now["sums"][name]}
                left = len(waiting) + len(running)
                if made(name) != before:
                    entry["seconds"] = round(usage.ru_utime + usage.ru_stime, 1)
                    say(f"{name} proved, {duration(entry['seconds'])} of processor time, {left} left")
                else:
                    say(f"{name} was proved already, {left} left")
                record["crates"][name] = entry
                keep("built.json", json.dumps(record, indent=1))
        return True
    finally:
        stop(running)


def install():
    """Puts the program that the toolchain built in the place of the one that was there."""
    aside = f"{BUILT}.new"
    shutil.copyfile(os.path.join(CRATES, PROGRAM, "out", PROGRAM), aside)
    os.chmod(aside, 0o755)
    with open(aside, "rb") as it:
        os.fsync(it.fileno())
    os.replace(aside, BUILT)


def state(uses, record):
    """What all is now. Without a toolchain that of the last build counts."""
    kit = toolchain()
    return {"kit": kit, "sums": sums(uses, kit or record["kit"])}


def is_current(now, record):
    return os.access(BUILT, os.X_OK) and record["program"] == now["sums"][PROGRAM]


def build(look):
    uses, began = dependencies(), time.time()
    while True:
        record = read_record()
        now = state(uses, record)
        if is_current(now, record):
            keep_look(look)
            return 0
        if now["kit"] is None:
            say("the toolchain isn't there: no command rt is on the PATH")
            return 1
        anew = [it for it in uses if record["crates"].get(it, {}).get("sum") != now["sums"][it] or made(it) is None]
        anew = anew if PROGRAM in anew else [*anew, PROGRAM]
        announce(uses, anew, now, record)
        if not prove(uses, anew, now, record):
            return 1
        if sums(uses, now["kit"]) != now["sums"]:
            say("the source changed while it was proved: once more")
            continue
        install()
        last = {"crates": len(anew), "seconds": round(time.time() - began, 1)}
        keep("built.json", json.dumps({**record, "kit": now["kit"], "program": now["sums"][PROGRAM], "last": last}, indent=1))
        keep_look(look)
        say(f"built in {duration(time.time() - began)}")
        return 0


def with_lock(look):
    """Builds once no other build runs in this clone."""
    os.makedirs(OUT, exist_ok=True)
    with open(os.path.join(OUT, "lock"), "w", encoding="utf-8") as lock:
        try:
            fcntl.flock(lock, fcntl.LOCK_EX | fcntl.LOCK_NB)
        except BlockingIOError:
            say("another build runs in this clone: waiting for it")
            fcntl.flock(lock, fcntl.LOCK_EX)
        except OSError:
            pass  # some file systems have no locks
        return build(look)


def main(look=""):
    def ended(number, _):
        raise SystemExit(f"acl2p: the build was stopped by signal {number}")

    for it in (signal.SIGTERM, signal.SIGHUP, signal.SIGINT):
        signal.signal(it, ended)
    try:
        record = read_record()
        if is_current(state(dependencies(), record), record):
            keep_look(look)
            return 0
        for folder in (TOP, CRATES):
            if not os.access(OUT if folder == TOP and os.path.exists(OUT) else folder, os.W_OK):
                so = "; ACL2P_STALE=1 runs the program that is there" if os.path.exists(BUILT) else ""
                say(f"the program isn't what the source and the toolchain say, and {folder} can't be written{so}")
                return 1
        return with_lock(look)
    except OSError as error:
        say(f"the program wasn't built: {error}")
        return 1


if __name__ == "__main__":
    sys.exit(main(*sys.argv[1:]))
