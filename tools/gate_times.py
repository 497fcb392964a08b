#!/usr/bin/env python3
"""Runs the gate, and tells what each of its jobs took.

    gate_times.py [--to FILE] rt ci [NAME..]

It starts the command, ends with its status, and writes a table by crate, one by kind and the
longest jobs to FILE or to standard error: at the end, at Ctrl-C, and into FILE each half minute.

A job is a `rattle` that the command started, with all processes below it. Its kind is read from
its words and its folder:

    proof     a crate's own proof, from nothing
    tests     the proof and the build of a crate's test functions
    seed      the proof that a crate's must-fail edits begin with, and once more after them
    edit      a must-fail edit, over the seed or from nothing
    compile   the build of a program that is proved
    layout    a look at the layout of its files, and anything else that rattle is asked

How exact it is. Every 0.2 seconds each job's processor time is read from /proc: its processes'
own, and that of those that they have waited for. So what a job took after the last look, at most
0.2 seconds a processor, is not in its row, and a job that ended between two looks has no row. The
line `all` has the whole as the system counts it, so `beside the jobs` is all that the rows lack:
that, rt itself, and the tests and programs that ran. Memory is the most that one process of the
job held, or, where copies of it work side by side, the most of all of them at looks a second
apart, a page that several share counted once.
"""

import os
import resource
import signal
import subprocess
import sys
import time

LOOK = 0.2  # seconds
WEIGH = 1.0
WRITE = 30.0
TICKS = os.sysconf("SC_CLK_TCK")
KINDS = ("proof", "tests", "seed", "edit", "compile", "layout")
LONGEST = 25


class Job:
    def __init__(self, crate, kind, jobs, now):
        self.crate, self.kind, self.jobs = crate, kind, jobs
        self.first = self.last = now
        self.seconds = self.megabytes = 0.0


def text_of(path):
    try:
        with open(path, encoding="utf-8", errors="replace") as file:
            return file.read()
    except OSError:  # it has ended
        return ""


def stat_of(process):
    """The fields of /proc/PID/stat from the state on, and before them the process's name."""
    before, _, after = text_of(f"/proc/{process}/stat").rpartition(")")
    return [before.partition("(")[2], *after.split()]


def processes():
    """Each process's parent, name and moment of start."""
    found = {}
    for process in filter(str.isdigit, os.listdir("/proc")):
        stat = stat_of(process)
        if len(stat) > 20:
            found[int(process)] = int(stat[2]), stat[0], stat[20]
    return found


def seconds_of(process):
    """What a process took, and those that it has waited for."""
    return sum(map(int, stat_of(process)[12:16])) / TICKS


def started_by(process, parents):
    """The process and all below it, each after the one that started it."""
    below = [process]
    for it in below:
        below += parents.get(it, ())
    return below


def tops(process, found, parents):
    """Each `rattle` below the process that no other `rattle` has started."""
    for it in parents.get(process, ()):
        if found[it][1] == "rattle":
            yield it
        else:
            yield from tops(it, found, parents)


def after(word, words):
    return words[words.index(word) + 1] if word in words[:-1] else ""


def job_of(process, now):
    """The job that a `rattle` seen now is, from its words and its folder."""
    words = text_of(f"/proc/{process}/cmdline").split("\0")
    try:
        folder = os.readlink(f"/proc/{process}/cwd")
    except OSError:  # it has ended
        folder = ""
    kept = after("--incremental", words)
    if "--crate-checked" in words:
        kind = "compile"
    elif not after("--crate-name", words):
        kind = "layout"
    elif "--test" in words:
        kind = "tests"
    elif os.path.basename(folder).startswith("rt-edit-"):
        kind = "seed" if os.path.basename(kept) == "seed" else "edit"
    else:
        kind = "proof"
    crate = after("--crate-name", words) or os.path.basename(folder)
    return Job(crate, kind, after("--jobs", words) or "1", now)


def status_kilobytes(process, word):
    for line in text_of(f"/proc/{process}/status").splitlines():
        if line.startswith(word):
            return int(line.split()[1])
    return 0


def shared_once(process):
    for line in text_of(f"/proc/{process}/smaps_rollup").splitlines():
        if line.startswith("Pss:"):
            return int(line.split()[1])
    return 0


def megabytes_of(members):
    most = max(status_kilobytes(it, "VmHWM:") for it in members)
    if len(members) > 1:
        most = max(most, sum(shared_once(it) for it in members))
    return most / 1024


class Watch:
    """The jobs of a command, as they were seen."""

    def __init__(self, command):
        self.command, self.jobs, self.weighed = command, {}, 0.0
        self.begun = time.monotonic()

    def look(self):
        found, parents, now = processes(), {}, time.monotonic()
        for process, (parent, _, _) in found.items():
            parents.setdefault(parent, []).append(process)
        weighs = now - self.weighed >= WEIGH
        self.weighed = now if weighs else self.weighed
        for top in tops(self.command, found, parents):
            key = top, found[top][2]
            if key not in self.jobs:
                self.jobs[key] = job_of(top, now)
            job, members = self.jobs[key], started_by(top, parents)
            # (a process is read after the one that may wait for it, so none counts twice)
            job.seconds = max(job.seconds, sum(map(seconds_or_none, members)))
            job.last = now
            if weighs:
                job.megabytes = max(job.megabytes, megabytes_of(members))

    def text(self, whole=None):
        """The tables; whole is the processor time of all that has ended, where it is known."""
        jobs = list(self.jobs.values())
        lines = by_crate(jobs) + [""] + by_kind(jobs) + [""] + longest(jobs) + [""]
        total, elapsed = sum(it.seconds for it in jobs), time.monotonic() - self.begun
        lines.append(f"all jobs          {total:9.1f} s of processors, {len(jobs)} jobs")
        if whole is not None:
            lines.append(f"beside the jobs   {whole - total:9.1f} s")
            lines.append(f"all               {whole:9.1f} s")
        lines.append(f"elapsed           {elapsed:9.1f} s")
        return "\n".join(lines) + "\n"


def seconds_or_none(process):
    try:
        return seconds_of(process)
    except ValueError:  # it has ended
        return 0.0


def total(jobs):
    return sum(it.seconds for it in jobs)


def longest_of(jobs):
    return max(it.seconds for it in jobs)


def most(jobs):
    return max(it.megabytes for it in jobs)


def by_crate(jobs):
    """A row for each crate, the greatest sum first: seconds of each kind, sum, longest job."""
    crates = {}
    for job in jobs:
        crates.setdefault(job.crate, []).append(job)
    head = "".join(f"{it:>9}" for it in KINDS)
    head = f"{'crate':18}{head}{'sum':>9}{'longest':>9}{'edits':>6}{'MB':>7}"
    lines = ["Seconds of processors, by crate", "", head]
    for crate, own in sorted(crates.items(), key=lambda it: -total(it[1])):
        each = "".join(f"{total(it for it in own if it.kind == kind):9.1f}" for kind in KINDS)
        edits = sum(it.kind == "edit" for it in own)
        sums = f"{total(own):9.1f}{longest_of(own):9.1f}"
        lines.append(f"{crate:18}{each}{sums}{edits:6}{most(own):7.0f}")
    return lines


def by_kind(jobs):
    head = f"{'kind':10}{'jobs':>6}{'sum':>10}{'longest':>9}{'MB':>7}"
    lines = ["Seconds of processors, by kind", "", head]
    for kind in KINDS:
        own = [it for it in jobs if it.kind == kind]
        if own:
            sums = f"{total(own):10.1f}{longest_of(own):9.1f}"
            lines.append(f"{kind:10}{len(own):6}{sums}{most(own):7.0f}")
    return lines


def longest(jobs):
    head = f"{'crate':18}{'kind':9}{'seconds':>9}{'elapsed':>9}{'begun':>8}{'--jobs':>7}{'MB':>7}"
    lines = ["The longest jobs", "", head]
    start = min((it.first for it in jobs), default=0)
    for job in sorted(jobs, key=lambda it: -it.seconds)[:LONGEST]:
        times = f"{job.seconds:9.1f}{job.last - job.first:9.1f}{job.first - start:8.0f}"
        lines.append(f"{job.crate:18}{job.kind:9}{times}{job.jobs:>7}{job.megabytes:7.0f}")
    return lines


def write(text, to):
    if to is None:
        sys.stderr.write(text)
    else:
        with open(to, "w", encoding="utf-8") as file:
            file.write(text)


def watched(command, watch, to):
    """Looks at the command until it ends."""
    written = time.monotonic()
    while command.poll() is None:
        watch.look()
        if to is not None and time.monotonic() - written >= WRITE:
            write(watch.text(), to)
            written = time.monotonic()
        time.sleep(LOOK)


def ended(command):
    """Lets an interrupted command end, and makes it end where it does not."""
    try:
        command.wait(10)
    except subprocess.TimeoutExpired:
        command.terminate()
        command.wait()


def main(words):
    to = None
    if words[:1] == ["--to"] and len(words) > 1:
        to, words = words[1], words[2:]
    if not words or words[0].startswith("-"):
        sys.exit("usage: gate_times.py [--to FILE] rt ci [NAME..]")
    command = subprocess.Popen(words)
    signal.signal(signal.SIGTERM, lambda *_: command.terminate())
    watch = Watch(command.pid)
    try:
        watched(command, watch, to)
    except KeyboardInterrupt:  # the terminal has sent it to the command too
        ended(command)
    used = resource.getrusage(resource.RUSAGE_CHILDREN)
    write(watch.text(used.ru_utime + used.ru_stime), to)
    status = command.returncode
    return 128 - status if status < 0 else status


if __name__ == "__main__":
    sys.exit(main(sys.argv[1:]))
