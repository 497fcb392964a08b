#!/usr/bin/env python3
"""Tries the edits of crates/NAME/edits/, many in one check, and lists those that are let through.

    python3 tools/edits.py [--since REV] [--workers N] [--rooms FOLDER] [--logs FOLDER] [CRATE..]

With no CRATE it tries those of all crates; with --since those of the crates whose code,
definitions, proofs or edits differ from the commit REV. An edit has the form of a must-fail edit
(docs/WORKING.md), and the check of its crate has to refuse it.

A caller is proved from its callee's contract, also where the callee itself is not proved. So edits
of different functions do not disturb one another, and one check tells of each changed function
whether a goal of its own fails: then its edit is refused. An edit whose function is proved, or only
calls one that is not, is tried once more, alone, and only that says that it is let through. Edits
of definitions, of several functions, and of what is no function are tried alone at once.

The crates are checked as they stand first, side by side, in copies of the checkout (rooms), one a
processor. Each room takes the libraries that the others have built, and the rooms stay, so that the
next run checks only what changed. Then the edits are tried side by side, over what was kept: each
check sees its crate's room at the room's own path through an overlay that is thrown away. Where no
overlay may be mounted, a room has one check at a time, and its files are put back.

The last line is `N refused, M let through, K not applied`; the status is 1 where one is let through
or does not apply. An edit that is refused in a lemma alone, or since a proof names what it takes
away, is listed as telling little.
"""

import argparse
import concurrent.futures
import filecmp
import functools
import os
import re
import shutil
import subprocess
import sys
import tempfile
import threading
import time

ROOT = os.path.dirname(os.path.dirname(os.path.abspath(__file__)))
PARTS = ("src", "specs", "proofs", "edits")
KIT = os.path.dirname(os.path.dirname(os.path.realpath(shutil.which("rt") or "/usr/bin/rt")))
# Where rt notes which copies have kept work: a check of an edit must leave no note there.
NOTES = os.path.join(os.path.dirname(KIT), "rattle-kept", "work")
# A message on a proof file that names what an edit took away, or that cites such a proof.
GONE = re.compile(r"(note: )?(\./)?proofs/"
                  r".*(has no field|is not in scope|has no `|was not admitted)")
PLACE = re.compile(r"(note: )?\S+:\d+:\d+: ")
SOURCE = re.compile(r"(note: )?(\./)?src/\S+:\d+:\d+: .*not proved")
ANSWERS = re.compile(r"(note: )?(\./)?proofs/.*/(Answers|Invariants|Proof)\.antt")
FUNCTION = re.compile(r"^( *)(pub(\([^)]*\))? )?(const )?(unsafe )?fn (\w+)", re.M)
LIMIT = re.compile(r"step limit|memory limit|ran out of")
SAID = {"refused": "refused", "weak": "refused, but by no goal of a function",
        "through": "LET THROUGH", "unapplied": "NOT APPLIED"}


def read(path):
    with open(path, encoding="utf-8") as file:
        return file.read()


def crate_path(crate, *parts):
    return os.path.join(ROOT, "crates", crate, *parts)


def now():
    return time.strftime("%H:%M:%S")


# --- edits ----------------------------------------------------------------------------------------

class Edit:
    """One file of edits/, with the pairs of texts that it changes."""

    def __init__(self, crate, path):
        self.crate, self.path = crate, path
        self.label = f"{crate}/{os.path.basename(path)}"
        self.pairs = pairs_of(read(path))

    def text(self, file):
        path = crate_path(self.crate, file)
        return read(path) if os.path.isfile(path) else ""

    def applied(self, texts):
        """The changed files of the crate, over texts; None where an old text is not there once."""
        made = dict(texts)
        for file, old, new in self.pairs:
            text = made.get(file) or self.text(file)
            if text.count(old) != 1:
                return None
            made[file] = text.replace(old, new)
        return made if self.pairs else None

    def function(self):
        """The name of the one function that the edit changes, or None where there is none."""
        places = set()
        for file, old, _ in self.pairs:
            text = self.text(file)
            if not file.startswith("src/") or text.count(old) != 1:
                return None
            places.add((file, function_at(text, text.index(old), len(old))))
        return places.pop()[1] if len(places) == 1 else None


def pairs_of(text):
    """The (file, old, new) of an edit's lines."""
    file, old, found = "", None, []
    for line in text.split("\n"):
        if line.startswith("file: "):
            file = line[6:].strip()
        elif line.startswith("old: "):
            old = line[5:]
        elif line.startswith("new:") and old is not None:
            found.append((file, old, line[4:].removeprefix(" ")))
            old = None
    return found


def function_at(text, at, size):
    """The name of the function in which a stretch of a laid out text stands, or None."""
    begins = [it for it in FUNCTION.finditer(text) if it.start() <= at]
    if not begins:
        return None
    last = begins[-1]
    end = re.compile(rf"^{last[1]}\}}|^{last[1]}.*\{{\}}$", re.M).search(text, last.start())
    return last[6] if end and at + size <= end.end() else None


def edits_of(crates):
    found = []
    for crate in crates:
        folder = crate_path(crate, "edits")
        names = sorted(os.listdir(folder)) if os.path.isdir(folder) else []
        found += [Edit(crate, os.path.join(folder, it)) for it in names if it.endswith(".edit")]
    return found


def groups_of(edits):
    """Edits to be tried in one check, of different functions of a crate, and those to be alone."""
    groups = []
    for edit in edits:
        name = edit.function()
        home = next((it for it in groups if name and may_join(it, edit.crate, name)), None)
        if home:
            home[0].add(name)
            home[1].append(edit)
        else:
            groups.append(({name}, [edit]))
    return [edits for _, edits in groups]


def may_join(group, crate, name):
    names, edits = group
    return edits[0].crate == crate and None not in names and name not in names


# --- crates ---------------------------------------------------------------------------------------

def listed_crates():
    """The crates of crates.txt, each with those of the repository that it stands on."""
    found = {}
    for line in read(os.path.join(ROOT, "crates.txt")).split("\n"):
        name, colon, deps = line.split("#")[0].partition(":")
        if colon:
            found[name.split()[0]] = deps.split()
    return {name: [it for it in deps if it in found] for name, deps in found.items()}


def crates_since(revision):
    """The crates that differ from a commit in what an edit is tried on."""
    names = ""
    for words in (["diff", "--name-only", revision], ["ls-files", "-o", "--exclude-standard"]):
        ran = subprocess.run(["git", *words], cwd=ROOT, capture_output=True, text=True, check=True)
        names += ran.stdout
    parts = [it.split("/") for it in names.split("\n")]
    return sorted({it[1] for it in parts if len(it) > 3 and it[0] == "crates" and it[2] in PARTS})


def files_of(crate):
    """The files that a check of a crate reads, as paths below the top."""
    for part in PARTS[:3]:
        for at, _, names in os.walk(crate_path(crate, part)):
            yield from (os.path.relpath(os.path.join(at, it), ROOT) for it in names)


def lines_of(crate):
    return sum(read(os.path.join(ROOT, it)).count("\n") for it in files_of(crate))


def below(crates, listed):
    """The crates and all that they stand on."""
    found, todo = set(), list(crates)
    while todo:
        crate = todo.pop()
        if crate not in found:
            found.add(crate)
            todo += listed[crate]
    return found


# --- checks ---------------------------------------------------------------------------------------

class Room:
    """A copy of what the checkout's crates are checked by."""

    def __init__(self, root):
        self.root = root

    def crate(self, name):
        return os.path.join(self.root, "crates", name)

    def fill(self):
        """Makes the copy the same as the checkout; a file that has not changed is not touched."""
        wanted = {"crates.txt", "HANDLES"}
        for crate in listed_crates():
            wanted |= set(files_of(crate))
        for path in wanted:
            copy_changed(os.path.join(ROOT, path), os.path.join(self.root, path))
        for at, folders, names in os.walk(os.path.join(self.root, "crates")):
            folders[:] = [it for it in folders if it != "out"]
            paths = [os.path.join(at, it) for it in names]
            for path in (it for it in paths if os.path.relpath(it, self.root) not in wanted):
                os.remove(path)

    def take(self, name, home):
        """Shares the library of a crate that another room has built, by links."""
        built, mine = (os.path.join(it.crate(name), "out", "rlib") for it in (home, self))
        stamps = [os.path.join(it, "stamp") for it in (built, mine)]
        if home is self or not os.path.isfile(stamps[0]):
            return
        if not os.path.isfile(stamps[1]) or read(stamps[0]) != read(stamps[1]):
            shutil.rmtree(mine, ignore_errors=True)
            shutil.copytree(built, mine, copy_function=os.link)


def copy_changed(one, other):
    if os.path.isfile(other) and filecmp.cmp(one, other, shallow=False):
        return
    os.makedirs(os.path.dirname(other), exist_ok=True)
    shutil.copyfile(one, other)


def write_all(folder, texts):
    for file, text in texts.items():
        os.makedirs(os.path.dirname(os.path.join(folder, file)), exist_ok=True)
        with open(os.path.join(folder, file), "w", encoding="utf-8") as out:
            out.write(text)


def run(words, folder):
    """The status and the text of a command; one that is killed, for memory say, runs once more."""
    for _ in range(2):
        ran = subprocess.run(words, cwd=folder, stdin=subprocess.DEVNULL, stdout=subprocess.PIPE,
                             stderr=subprocess.STDOUT, text=True, errors="replace", check=False)
        if ran.returncode >= 0 and "was killed" not in ran.stdout:
            break
    return ran.returncode, ran.stdout


class Checks:
    """Checks crates as they stand, lowest first, one at a time in each room."""

    def __init__(self, rooms, crates):
        self.listed = listed_crates()
        self.wanted = below(crates, self.listed)
        self.free, self.homes, self.failed = list(rooms), {}, None

    def next(self, begun):
        """A crate whose libraries are checked, the one with the most lines above it first."""
        ready = [it for it in self.wanted - begun
                 if all(low in self.homes for low in self.listed[it])]
        return max(ready, key=self.weight, default=None)

    @functools.lru_cache(maxsize=None)
    def weight(self, crate):
        users = [it for it in self.wanted if crate in self.listed[it]]
        return lines_of(crate) + max(map(self.weight, users), default=0)

    def check(self, crate, room):
        for low in below([crate], self.listed) - {crate}:
            room.take(low, self.homes[low])
        status, said = run(["rt", "check", "--jobs", "1"], room.crate(crate))
        if status == 0 and os.path.isfile(os.path.join(room.crate(crate), "src", "lib.rt")):
            status, said = run(["rt", "lib"], room.crate(crate))
        return crate, room, status, said

    def note(self, crate, room, status, said):
        self.free.append(room)
        self.homes[crate] = room
        if status:
            self.failed = f"{crate}:\n{said[-3000:]}"
        word = "not proved" if status else "checked"
        print(f"{now()} {crate} is {word}, {len(self.homes)} of {len(self.wanted)}", flush=True)

    def all(self):
        """Returns whether all are proved; homes has each crate's room then."""
        begun, running = set(), set()
        with concurrent.futures.ThreadPoolExecutor(len(self.free)) as pool:
            while running or not self.failed and len(self.homes) < len(self.wanted):
                while self.free and not self.failed and (crate := self.next(begun)):
                    begun.add(crate)
                    running.add(pool.submit(self.check, crate, self.free.pop()))
                ended, running = first_ended(running)
                for it in ended:
                    self.note(*it.result())
        return not self.failed


def first_ended(running):
    first = concurrent.futures.FIRST_COMPLETED
    return concurrent.futures.wait(running, return_when=first)


class Overlays:
    """Checks of changed crates, each over a view of the crate's room that is thrown away."""

    def __init__(self, scratch, homes):
        self.scratch, self.homes = scratch, homes
        self.number, self.lock = 0, threading.Lock()

    @staticmethod
    def may_be_mounted():
        with tempfile.TemporaryDirectory() as room:
            for name in ("low", "up", "work", "at"):
                os.mkdir(f"{room}/{name}")
            mount = ["mount", *overlay(f"{room}/low", room, f"{room}/at").split()[1:]]
            ran = subprocess.run(["unshare", "-m", *mount], stderr=subprocess.DEVNULL, check=False)
            return ran.returncode == 0

    def check(self, crate, texts):
        with self.lock:
            self.number += 1
            layers = os.path.join(self.scratch, str(self.number))
        home = self.homes[crate]
        os.makedirs(f"{layers}/work")
        write_all(f"{layers}/up/crates/{crate}", texts)
        script = " && ".join([f"if [ -d {NOTES} ]; then mount -t tmpfs tmpfs {NOTES}; fi",
                              overlay(home.root, layers, home.root),
                              f"cd {home.crate(crate)}", "exec rt check --jobs 1"])
        try:
            return run(["unshare", "-m", "sh", "-c", script], "/")
        finally:
            shutil.rmtree(layers, ignore_errors=True)


def overlay(lower, layers, at):
    """The command that shows a folder with the layers above it."""
    options = f"lowerdir={lower},upperdir={layers}/up,workdir={layers}/work"
    return f"mount -t overlay overlay -o {options} {at}"


class InPlace:
    """The same in the rooms themselves, one check at a time in each."""

    def __init__(self, homes):
        self.homes = homes
        self.locks = {it.root: threading.Lock() for it in homes.values()}

    def check(self, crate, texts):
        home = self.homes[crate]
        folder = home.crate(crate)
        with self.locks[home.root]:
            former = {file: read(os.path.join(folder, file)) for file in texts}
            try:
                write_all(folder, texts)
                return run(["rt", "check", "--jobs", "1"], folder)
            finally:
                write_all(folder, former)


# --- verdicts -------------------------------------------------------------------------------------

def goals_of(said):
    """What a check says of each function, by its last name: it is proved, it calls one that is not
    proved, or it has a goal of its own that fails."""
    order, found = ("proved", "calls", "own"), {}
    for path, what in re.findall(r"^fn (\S+): (.*)$", said, re.M):
        name = path.split("+")[0].split("::")[-1]
        if what == "proved":
            kind = "proved"
        elif what.startswith("no proof: it calls") and "did not prove" not in what:
            kind = "calls"
        else:
            kind = "own"
        found[name] = max(found.get(name, "proved"), kind, key=order.index)
    return found


def tells_little(said):
    """Whether a refusal comes of a lemma, or of a name that is gone, and of no goal."""
    if re.search(r"^fn \S+: no proof: .*did not prove", said, re.M):
        return False
    told = [it for it in said.split("\n") if PLACE.match(it)]
    return not any(SOURCE.match(it) or ANSWERS.match(it) and not GONE.match(it) for it in told)


class Tries:
    """What came of the edits."""

    def __init__(self, views, logs):
        self.views, self.logs, self.lock = views, logs, threading.Lock()
        self.found = {kind: [] for kind in SAID}

    def note(self, kind, edit, said, spent=0.0):
        with self.lock:
            self.found[kind].append(edit.label)
            seconds = f" ({spent:.0f} s)" if spent else ""
            print(f"{now()} {edit.label}: {SAID[kind]}{seconds}", flush=True)
        if self.logs and kind != "refused":
            name = edit.label.replace("/", ".") + ".log"
            with open(os.path.join(self.logs, name), "w", encoding="utf-8") as out:
                out.write(said)

    def many(self, edits):
        """Tries edits of different functions in one check; returns what has still to be tried."""
        texts = {}
        for edit in edits:
            made = edit.applied(texts)
            if made is None and len(edits) > 1:
                return [[it for it in edits if it is not edit], [edit]]
            if made is None:
                self.note("unapplied", edit, "an old text does not stand once in its file")
                return []
            texts = made
        begun = time.time()
        status, said = self.views.check(edits[0].crate, texts)
        spent = time.time() - begun
        if len(edits) == 1:
            self.alone(edits[0], status, said, spent)
            return []
        return self.several(edits, status, said, spent)

    def several(self, edits, status, said, spent):
        goals = goals_of(said)
        if status != 1 or "logic=not-proved" not in said or not goals:
            # (one that does not compile hides the others)
            return [edits[: len(edits) // 2], edits[len(edits) // 2 :]]
        crate = edits[0].crate
        print(f"{now()} {crate}: {len(edits)} edits in a check of {spent:.0f} s", flush=True)
        again = []
        for edit in edits:
            if goals.get(edit.function()) == "own":
                self.note("refused", edit, said)
            else:
                again.append([edit])
        return again

    def alone(self, edit, status, said, spent):
        if status == 0:
            kind = "through"
        elif "logic=not-proved" not in said and not LIMIT.search(said):
            kind = "unapplied"
        else:
            kind = "weak" if tells_little(said) else "refused"
        self.note(kind, edit, said, spent)

    def all(self, groups, workers):
        with concurrent.futures.ThreadPoolExecutor(workers) as pool:
            running = {pool.submit(self.many, it) for it in groups}
            while running:
                ended, running = first_ended(running)
                groups = [group for it in ended for group in it.result()]
                running |= {pool.submit(self.many, it) for it in groups}


# --- the command ----------------------------------------------------------------------------------

def arguments():
    rooms = os.path.join(tempfile.gettempdir(), f"dugnatsew-edits-{os.getuid()}")
    head, _, rest = __doc__.partition("\n\n")
    parser = argparse.ArgumentParser(description=head, epilog=rest,
                                     formatter_class=argparse.RawDescriptionHelpFormatter)
    parser.add_argument("crates", nargs="*", metavar="CRATE")
    parser.add_argument("--since", metavar="REV")
    parser.add_argument("--workers", type=int, default=len(os.sched_getaffinity(0)))
    parser.add_argument("--rooms", metavar="FOLDER", default=rooms, help="where the copies stay")
    parser.add_argument("--logs", metavar="FOLDER",
                        help="gets what a check said whose edit was not plainly refused")
    return parser.parse_args()


def tried(asked, homes, groups):
    if asked.logs:
        os.makedirs(asked.logs, exist_ok=True)
    with tempfile.TemporaryDirectory(prefix="edits-") as scratch:
        views = Overlays(scratch, homes) if Overlays.may_be_mounted() else InPlace(homes)
        tries = Tries(views, asked.logs)
        tries.all(groups, asked.workers)
    return tries.found


def told(found):
    """Prints what came of the edits; returns the status."""
    for kind in ("weak", "through", "unapplied"):
        for label in sorted(found[kind]):
            print(f"{SAID[kind]}: {label}")
    refused = len(found["refused"]) + len(found["weak"])
    bad = len(found["through"]), len(found["unapplied"])
    print(f"{refused} refused, {bad[0]} let through, {bad[1]} not applied")
    return 1 if any(bad) else 0


def main():
    asked = arguments()
    since = crates_since(asked.since) if asked.since else list(listed_crates())
    edits = edits_of(asked.crates or since)
    if not edits:
        return told({kind: [] for kind in SAID})
    sizes = {crate: lines_of(crate) for crate in {it.crate for it in edits}}
    groups = sorted(groups_of(edits), key=lambda it: -sizes[it[0].crate])
    print(f"{len(edits)} edits of {len(sizes)} crates in {len(groups)} checks, and one more for "
          "each that is tried again alone", flush=True)
    begun = time.time()
    rooms = [Room(os.path.join(asked.rooms, str(it))) for it in range(asked.workers)]
    for room in rooms:
        room.fill()
    checks = Checks(rooms, sizes)
    if not checks.all():
        print(f"The crates are not proved as they stand, so no edit is tried. {checks.failed}")
        return 1
    print(f"the crates as they stand: {time.time() - begun:.0f} s", flush=True)
    found = tried(asked, checks.homes, groups)
    print(f"{time.time() - begun:.0f} s in all")
    return told(found)


if __name__ == "__main__":
    sys.exit(main())
