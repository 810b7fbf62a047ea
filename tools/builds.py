#!/usr/bin/env python3
"""Proves and builds the program `flume` of the sources as they stand, for the launcher.

    tools/builds.py TIME

TIME says how long a build takes from nothing. The sources below the program, without tests and
wrong edits, are copied to a folder outside of the repository and proved there by rt's own gate.
Some kits keep what their gate has proved: then a build that was interrupted goes on where it
stopped. With the others the next start begins anew.
How far it is stands on standard error. Where two builds begin, the later one waits for the other,
and then takes what that has made.
"""
import contextlib
import fcntl
import os
import re
import shutil
import subprocess
import sys
import time

TOP = os.path.dirname(os.path.dirname(os.path.realpath(__file__)))
PROGRAM = "flume_cli"
PARTS = ("src", "specs", "proofs")
# what the gate runs a program on
RUN_ON = ("args", "data", "stdin", "stdout", "status")
# a line of progress for each so many crates
STEP = 5
# memory for each check that runs beside others, in bytes
MEMORY = 4 * 1024**3


def say(text):
    print(f"flume: {text}", file=sys.stderr, flush=True)


def room():
    """The folder of what is built of this clone, as the launcher has it too."""
    home = os.environ.get("HOME") or "/tmp"
    cache = os.environ.get("XDG_CACHE_HOME") or os.path.join(home, ".cache")
    cache = os.environ.get("FLUME_BUILD") or os.path.join(cache, "flume")
    return os.path.join(os.path.abspath(cache), TOP.replace("/", "-"))


def needed():
    """The program and the crates below it, with their lines of crates.txt."""
    with open(os.path.join(TOP, "crates.txt"), encoding="utf-8") as file:
        lines = [line for line in file if line.partition("#")[0].strip()]
    rows = {line.partition(":")[0].split()[0]: line for line in lines}
    found, left = set(), [PROGRAM]
    while left:
        name = left.pop()
        if name in rows and name not in found:
            found.add(name)
            left += rows[name].partition(":")[2].split()
    return {name: line for name, line in rows.items() if name in found}


def sources(crates):
    """Each file and folder that the program is made of."""
    yield os.path.join(TOP, "crates.txt")
    yield os.path.join(TOP, "HANDLES")
    for name in crates:
        for part in PARTS:
            for at, _, files in os.walk(os.path.join(TOP, "crates", name, part)):
                yield at
                yield from (os.path.join(at, it) for it in files)


def is_built(program, crates):
    """Whether the program is there, and no source is newer."""
    try:
        made = os.stat(program).st_mtime
    except OSError:
        return False
    return all(os.stat(it).st_mtime <= made for it in sources(crates))


@contextlib.contextmanager
def locked(name, waits):
    """Keeps others of that name from beginning, and says that it waits where one has begun."""
    os.makedirs(room(), exist_ok=True)
    with open(os.path.join(room(), name), "w", encoding="utf-8") as lock:
        try:
            fcntl.flock(lock, fcntl.LOCK_EX | fcntl.LOCK_NB)
        except BlockingIOError:
            say(waits)
            fcntl.flock(lock, fcntl.LOCK_EX)
        yield


def leave(built, program, since):
    """Puts a program in its place, as old as the sources that it was built of."""
    shutil.copy(built, f"{program}.new")
    os.chmod(f"{program}.new", 0o755)
    os.utime(f"{program}.new", (since, since))
    os.replace(f"{program}.new", program)


def copy_sources(tree, crates):
    """Makes the tree anew, of the sources alone."""
    shutil.rmtree(tree, ignore_errors=True)
    # the gate takes the folder with this name for the top of a repository
    os.makedirs(os.path.join(tree, ".git"))
    with open(os.path.join(tree, "crates.txt"), "w", encoding="utf-8") as file:
        file.writelines(crates.values())
    shutil.copy(os.path.join(TOP, "HANDLES"), tree)
    for name in crates:
        source, to = (os.path.join(it, "crates", name) for it in (TOP, tree))
        os.makedirs(to)
        for part in PARTS + RUN_ON:
            if os.path.isdir(os.path.join(source, part)):
                shutil.copytree(os.path.join(source, part), os.path.join(to, part))
            elif os.path.isfile(os.path.join(source, part)):
                shutil.copy(os.path.join(source, part), to)


def jobs():
    """How many checks run side by side: one more than processors, where memory is there."""
    try:
        with open("/proc/meminfo", encoding="ascii") as file:
            free = 1024 * int(re.search(r"MemAvailable:\s+(\d+)", file.read())[1])
    except (OSError, TypeError):
        return 1
    return max(1, min(len(os.sched_getaffinity(0)) + 1, free // MEMORY))


def prove(tree, log, count):
    """Has the gate prove the tree, with a line for each few crates, and returns its status."""
    how = {"PYTHONUNBUFFERED": "1", "RT_JOBS": os.environ.get("RT_JOBS") or str(jobs())}
    begun, done = time.monotonic(), 0
    with subprocess.Popen(
        ["rt", "ci"],
        cwd=tree,
        env={**os.environ, **how},
        errors="replace",
        stdin=subprocess.DEVNULL,
        stdout=subprocess.PIPE,
        stderr=subprocess.STDOUT,
    ) as gate:
        for line in gate.stdout:
            log.write(line)
            log.flush()
            if re.match(r"rt: \w+ (proved$|is kept: )", line):
                done += 1
                if done % STEP == 0 or done == count:
                    minutes = (time.monotonic() - begun) / 60
                    say(f"{done} of {count} crates proved, {minutes:.0f} minutes gone")
    return gate.returncode


def build(program, crates):
    """Proves and builds the program, and says whether that went well."""
    tree, log = (os.path.join(room(), it) for it in ("tree", "build.log"))
    since, begun = time.time(), time.monotonic()
    copy_sources(tree, crates)
    with open(log, "w", encoding="utf-8") as file:
        status = prove(tree, file, len(crates))
    built = os.path.join(tree, "crates", PROGRAM, "out", PROGRAM)
    if status or not os.path.isfile(built):
        with open(log, encoding="utf-8") as file:
            sys.stderr.writelines(file.readlines()[-20:])
        say(f"the program was not built; all that was said stands in {log}")
        return False
    leave(built, program, since)
    shutil.rmtree(tree)
    say(f"the program is proved and built, in {(time.monotonic() - begun) / 60:.0f} minutes")
    return True


def main(words):
    if len(words) != 1:
        return "usage: builds.py TIME"
    crates, program = needed(), os.path.join(room(), "flume")
    with locked("lock", f"another start is building; this one waits, {words[0]} at most"):
        if is_built(program, crates):
            os.utime(program)
            return 0
        stands = "is of older sources" if os.path.isfile(program) else "is not built yet"
        say(f"the proved program {stands}: it is proved and built now")
        say(f"from nothing that takes {words[0]}; if it is stopped, the next start goes on")
        say("where this kit keeps what it has proved, and else begins anew")
        say("for a result in a few minutes, without any proof: flume-try, with the same words")
        return 0 if build(program, crates) else 1


if __name__ == "__main__":
    try:
        sys.exit(main(sys.argv[1:]))
    except KeyboardInterrupt:
        say("the build was stopped")
        sys.exit(130)
