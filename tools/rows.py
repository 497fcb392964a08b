#!/usr/bin/env python3
"""The worked rows of rows/: runs a program on them, and makes, packs and adds them.

    rows.py run [--quick] [PROGRAM] [NAME..]
    rows.py make [FOLDER]
    rows.py pack [--bound BYTES] FILE
    rows.py pack [--bound BYTES] --check FILE
    rows.py add FOLDER..

A row is a folder rows/NAME with the words of a command and what has to come of it:

    args            one word a line
    stdout, status  what is printed, and the status
    want/           the files that are written
    put-fails       where it stands, standard output takes no byte
    slow            where it stands, the row costs an unproved program more than a few seconds
    any other       an input file

A file FILE may stand as FILE.parts: `size N`, and then a line `OFFSET HEX` or `OFFSET HEX * COUNT`
for each piece, in ascending order. What no line names is 0xff. A line with `#` is a comment.

`run` runs each row, or those whose name has a NAME in it, and prints what differs. PROGRAM is a
path with a slash; where it is left out, it is the newer of the proved and the unproved program.
An input file that a run changes is a difference too. The last line is `N passed, M failed`.

The unproved program is not run on rows that are slow, and with --quick none is.

`make` writes the rows with whole files to FOLDER, or to out/rows, for another implementation.

`pack` writes the rows with at most BYTES bytes of files as one text. A row is left out that is
slow, that has a word that is not UTF-8, or that names a file in another folder. With --check it
only looks whether FILE is that text.

`add` makes a row of each FOLDER, which has whole files, under the folder's name.
"""

import argparse
import concurrent.futures
import glob
import os
import shutil
import subprocess
import sys
import tempfile

HERE = os.path.dirname(os.path.abspath(__file__))
TOP = os.path.dirname(HERE)
ROWS = os.path.join(TOP, "rows")
PROVED = os.path.join(TOP, "crates", "boot_cli", "out", "boot_cli")
UNPROVED = os.path.join(TOP, "out", "dugnatsew")
FULL = os.path.join(os.path.dirname(os.devnull), "full")  # a device on which every write fails
SECONDS = 300  # for one row
BOUND = 600_000  # bytes of files of a row in a pack

PARTS = ".parts"
MARKS = ("put-fails", "slow")
NOT_INPUTS = ("args", "stdout", "status", "want", *MARKS)

LINE = 32  # bytes of a line that is no repeat
ERASED = b"\xff"
GAP = 8  # so many erased bytes are left out
REPEAT = 64  # so many bytes are told as a repeat
PERIOD = 40  # the longest bytes that are looked for as a repeat
SHORT = 1024  # a text of so many bytes stands as it is


# --- descriptions -------------------------------------------------------------------------------

def described(data):
    """The lines that tell a content."""
    return [f"size {len(data)}", *(piece_line(*piece) for piece in pieces(data))]


def piece_line(offset, data, count):
    return f"{offset} {data.hex()}" + (f" * {count}" if count > 1 else "")


def pieces(data):
    """The offset, the bytes and the count of each piece of a content."""
    at = erased_to(data, 0)
    while at < len(data):
        period, count = repeat(data, at)
        if not count:
            period, count = literal_size(data, at), 1
        yield at, data[at:at + period], count
        at = erased_to(data, at + period * count)


def erased_to(data, at):
    """The end of the erased bytes at an offset; the offset where they are too few to leave out."""
    end = at + same_size(data, at, 1) + 1 if data[at:at + 1] == ERASED else at
    return end if end - at >= GAP or end == len(data) else at


def same_size(data, at, period):
    """How many bytes from an offset are the same as those a period later."""
    size, step = 0, 64
    while step:
        first = data[at + size:at + size + step]
        later = data[at + size + period:at + size + period + step]
        if len(later) == step and first == later:
            size += step
            step *= 2
        else:
            step //= 2
    return size


def repeat(data, at):
    """The period and the count of the repeat at an offset; a count of 0 where there is none."""
    best = 0, 0
    for period in range(1, PERIOD + 1):
        count = 1 + same_size(data, at, period) // period
        if period * count > max(REPEAT - 1, best[0] * best[1]) and count > 1:
            best = period, count
    return best


def literal_size(data, at):
    """How many bytes from an offset stand in one line."""
    end = min((at // LINE + 1) * LINE, len(data))
    gap = data.find(ERASED * GAP, at, end + GAP - 1)
    return (gap if gap > at else end) - at


def content_of(lines):
    """The content that lines tell. A line out of form is a ValueError."""
    lines = [line for line in lines if not line.startswith("#")]
    words = lines[0].split(" ") if lines else []
    if len(words) != 2 or words[0] != "size":
        raise ValueError("no size")
    data, at = bytearray(ERASED * int(words[1])), 0
    for line in lines[1:]:
        offset, piece = piece_of(line)
        if offset < at or offset + len(piece) > len(data):
            raise ValueError(f"out of place: {line[:80]}")
        at = offset + len(piece)
        data[offset:at] = piece
    return bytes(data)


def piece_of(line):
    """The offset and the bytes of a line."""
    words = line.split(" ")
    count = int(words[3]) if len(words) == 4 and words[2] == "*" else 1
    if len(words) not in (2, 4) or len(words) == 4 and words[2] != "*" or count < 1:
        raise ValueError(f"out of form: {line[:80]}")
    piece = bytes.fromhex(words[1])
    if not piece:
        raise ValueError(f"no bytes: {line}")
    return int(words[0]), piece * count


def is_text(data):
    try:
        text = data.decode("utf-8")
    except UnicodeDecodeError:
        return False
    has_text = bool(text.strip()) or not data
    return has_text and all(sign.isprintable() or sign in "\n\t" for sign in text)


def stands_whole(data, lines):
    """Whether a content is read more easily as it is."""
    return is_text(data) and (len(data) <= SHORT or sum(map(len, lines)) * 4 > len(data))


# --- rows ---------------------------------------------------------------------------------------

class Row:
    """A row: its words, what has to come of it, and its files as a map from names to bytes."""

    def __init__(self, folder):
        self.name = os.path.basename(os.path.normpath(folder))
        files = read_files(folder)
        self.words = files.pop("args").split(b"\n")[:-1]
        self.stdout = files.pop("stdout")
        self.status = int(files.pop("status"))
        self.marks = [mark for mark in MARKS if files.pop(mark, None) is not None]
        self.inputs = files
        want = os.path.join(folder, "want")
        self.want = read_files(want) if os.path.isdir(want) else {}

    def size(self):
        files = [self.stdout, *self.inputs.values(), *self.want.values()]
        return sum(map(len, files))

    def is_packed(self, bound):
        """Whether a pack has the row."""
        is_plain = all(is_utf8(word) and b"/" not in word for word in self.words)
        return is_plain and "slow" not in self.marks and self.size() <= bound


def is_utf8(word):
    try:
        word.decode("utf-8")
        return True
    except UnicodeDecodeError:
        return False


def read_files(folder):
    """The files of a folder, a described one under its own name."""
    files = {}
    for entry in os.scandir(folder):
        if entry.is_file():
            name = entry.name.removesuffix(PARTS)
            if name in files:
                raise ValueError(f"{name} stands twice")
            files[name] = read_file(entry.path)
    return files


def read_file(path):
    with open(path, "rb") as file:
        data = file.read()
    return content_of(data.decode("ascii").splitlines()) if path.endswith(PARTS) else data


def folder_of(name):
    return os.path.join(ROWS, name)


def row_names(chosen=()):
    """The names of the rows, or of those that have a chosen word in their name."""
    names = sorted(entry.name for entry in os.scandir(ROWS) if entry.is_dir())
    return [name for name in names if not chosen or any(part in name for part in chosen)]


def write_row(row, folder, put):
    """Writes a row into a new folder; put writes its files."""
    os.makedirs(folder)
    put_whole(folder, "args", b"".join(word + b"\n" for word in row.words))
    put_whole(folder, "status", b"%d\n" % row.status)
    for mark in row.marks:
        put_whole(folder, mark, b"")
    put(folder, "stdout", row.stdout)
    put_files(folder, row.inputs, put)
    if row.want:
        os.mkdir(os.path.join(folder, "want"))
        put_files(os.path.join(folder, "want"), row.want, put)


def put_files(folder, files, put):
    for name, data in files.items():
        put(folder, name, data)


def put_whole(folder, name, data):
    with open(os.path.join(folder, name), "wb") as file:
        file.write(data)


def put_readable(folder, name, data):
    """Writes a file as it is or described, whichever is read more easily."""
    lines = described(data)
    if stands_whole(data, lines):
        put_whole(folder, name, data)
    else:
        put_whole(folder, name + PARTS, "".join(line + "\n" for line in lines).encode("ascii"))


# --- run ----------------------------------------------------------------------------------------

def run_row(program, row):
    """What differs when a program runs a row."""
    with tempfile.TemporaryDirectory() as folder:
        put_files(folder, row.inputs, put_whole)
        try:
            done = run_program(program, row, folder)
        except subprocess.TimeoutExpired:
            return [f"it had not ended after {SECONDS} seconds"]
        return [*status_faults(done, row), *stdout_faults(done, row), *file_faults(folder, row)]


def run_program(program, row, folder):
    out = open(FULL, "wb") if "put-fails" in row.marks else None
    try:
        return subprocess.run([program.encode(), *row.words], cwd=folder, stdin=subprocess.DEVNULL,
                              stdout=out or subprocess.PIPE, stderr=subprocess.PIPE,
                              timeout=SECONDS, check=False)
    finally:
        if out:
            out.close()


def status_faults(done, row):
    if done.returncode == row.status:
        return []
    said = done.stderr.decode("utf-8", "replace").strip().splitlines()[-1:]
    return [" ".join([f"status: got {done.returncode}, wanted {row.status}", *said])]


def stdout_faults(done, row):
    got = done.stdout or b""
    return [] if got == row.stdout else [f"stdout: {first_line(got, row.stdout)}"]


def file_faults(folder, row):
    faults, after = [], {**row.inputs, **row.want}
    for name, wanted in sorted(after.items()):
        path = os.path.join(folder, name)
        if not os.path.isfile(path):
            faults.append(f"{name}: not written")
            continue
        got = read_whole(path)
        if got != wanted:
            faults.append(f"{name}: {first_byte(got, wanted)}")
    others = sorted(name for name in os.listdir(folder) if name not in after)
    return faults + [f"{name}: written and not wanted" for name in others]


def read_whole(path):
    with open(path, "rb") as file:
        return file.read()


def first_line(got, wanted):
    """The first line in which two texts differ."""
    got, wanted = (text.decode("utf-8", "replace").split("\n") for text in (got, wanted))
    number = first_difference(got, wanted)
    got, wanted = (repr(lines[number]) if number < len(lines) else "the end"
                   for lines in (got, wanted))
    return f"line {number + 1}: got {got}, wanted {wanted}"


def first_byte(got, wanted):
    """The first byte in which two contents differ."""
    number = first_difference(got, wanted)
    got, wanted = (f"{data[number]:02x}" if number < len(data) else "the end"
                   for data in (got, wanted))
    return f"byte {number}: got {got}, wanted {wanted}"


def first_difference(first, second):
    both = min(len(first), len(second))
    return next((n for n in range(both) if first[n] != second[n]), both)


def judge(program, name, is_quick):
    """What differs in a row; None where it is left out."""
    try:
        row = Row(folder_of(name))
    except (KeyError, ValueError, OSError) as fault:
        return [f"it is no row: {fault}"]
    return None if is_quick and "slow" in row.marks else run_row(program, row)


class Progress:
    """Tells how many rows have been run: on a terminal in one line, else each hundred rows."""

    def __init__(self, total):
        self.total, self.done, self.failed = total, 0, 0
        self.is_terminal = sys.stdout.isatty()

    def count(self, name, faults):
        self.done += 1
        if faults:
            self.failed += 1
            self.clear()
            print("\n    ".join([name, *faults]), flush=True)
        if self.is_terminal:
            print(f"\r{self.line()} ", end="", flush=True)
        elif self.done % 100 == 0:
            print(self.line(), flush=True)

    def line(self):
        return f"{self.done} of {self.total} rows, {self.failed} failed"

    def clear(self):
        if self.is_terminal:
            print("\r\033[K", end="", flush=True)


def run_rows(program, names, is_quick):
    """Runs rows, side by side; gives the numbers of the passed, the failed and the left out."""
    progress, left_out = Progress(len(names)), 0
    with concurrent.futures.ThreadPoolExecutor(len(os.sched_getaffinity(0))) as pool:
        jobs = {pool.submit(judge, program, name, is_quick): name for name in names}
        for job in concurrent.futures.as_completed(jobs):
            faults = job.result()
            left_out += faults is None
            progress.count(jobs[job], faults)
    progress.clear()
    return len(names) - progress.failed - left_out, progress.failed, left_out


def newer_program():
    there = [path for path in (PROVED, UNPROVED) if os.path.exists(path)]
    if not there:
        sys.exit('rows.py: there is no program: "make demo" builds one, and "make" a proved one')
    return max(there, key=os.path.getmtime)


def is_stale(program):
    """Whether a source has changed since the program was built."""
    built = os.path.getmtime(program)
    sources = glob.iglob(os.path.join(TOP, "crates", "*", "src", "**", "*.rt"), recursive=True)
    return any(os.path.getmtime(path) > built for path in sources)


def run(words):
    names = words.names
    is_given = bool(names) and "/" in names[0]
    program = names.pop(0) if is_given else newer_program()
    is_quick = words.quick or os.path.realpath(program) == os.path.realpath(UNPROVED)
    print(f"The rows of rows/ on {os.path.relpath(program)}:", flush=True)
    if not is_given and is_stale(program):
        print("A source is newer than this program; it is not built anew here.", flush=True)
    passed, failed, left_out = run_rows(os.path.abspath(program), row_names(names), is_quick)
    if left_out:
        print(f"{left_out} rows are slow, and left out here; the proved program runs them")
    print(f"{passed} passed, {failed} failed")
    return 1 if failed or not passed else 0


# --- make, pack, add ----------------------------------------------------------------------------

def make(words):
    names = row_names()
    for name in names:
        folder = os.path.join(words.folder, name)
        shutil.rmtree(folder, ignore_errors=True)
        row = Row(folder_of(name))
        row.marks = [mark for mark in row.marks if mark != "slow"]
        write_row(row, folder, put_whole)
    print(f"{len(names)} rows are in {words.folder}")
    return 0


def pack(words):
    rows = [Row(folder_of(name)) for name in row_names()]
    rows = [row for row in rows if row.is_packed(words.bound)]
    text = "".join(line + "\n" for row in rows for line in pack_lines(row)).encode("utf-8")
    if words.check:
        return check_pack(words.file, text)
    put_whole(os.path.dirname(words.file), os.path.basename(words.file), text)
    print(f"{len(rows)} rows are in {words.file}, {len(text)} bytes")
    return 0


def pack_lines(row):
    """The lines of a row in a pack."""
    yield f"row {row.name}"
    yield from (f"arg {word.decode('utf-8')}" for word in row.words)
    yield f"status {row.status}"
    if "put-fails" in row.marks:
        yield "put-fails"
    for kind, files in (("file", row.inputs), ("want", row.want)):
        for name, data in sorted(files.items()):
            yield f"{kind} {name}"
            yield from described(data)
    yield "stdout"
    yield from described(row.stdout)


def check_pack(path, text):
    if os.path.exists(path) and read_whole(path) == text:
        return 0
    print(f'{path} is not what rows/ gives: "tools/rows.py pack {path}" writes it anew')
    return 1


def add(words):
    for given in words.folders:
        row = Row(given)
        shutil.rmtree(folder_of(row.name), ignore_errors=True)
        write_row(row, folder_of(row.name), put_readable)
        if vars(Row(folder_of(row.name))) != vars(row):
            sys.exit(f"rows.py: {row.name} is not read as it was written")
    return 0


def main():
    head, _, rest = __doc__.partition("\n\n")
    parser = argparse.ArgumentParser(description=head, epilog=rest,
                                     formatter_class=argparse.RawDescriptionHelpFormatter)
    commands = parser.add_subparsers(required=True)
    command = commands.add_parser("run")
    command.add_argument("--quick", action="store_true")
    command.add_argument("names", nargs="*", metavar="PROGRAM or NAME")
    command.set_defaults(call=run)
    command = commands.add_parser("make")
    command.add_argument("folder", nargs="?", default=os.path.join(TOP, "out", "rows"))
    command.set_defaults(call=make)
    command = commands.add_parser("pack")
    command.add_argument("--bound", type=int, default=BOUND)
    command.add_argument("--check", action="store_true")
    command.add_argument("file")
    command.set_defaults(call=pack)
    command = commands.add_parser("add")
    command.add_argument("folders", nargs="+")
    command.set_defaults(call=add)
    words = parser.parse_args()
    sys.exit(words.call(words))


main()
