#!/usr/bin/env python3
"""Builds the program without its proofs, boots the example image, and keeps what was built.

    demo.py OUT

Run it at the top of the repository. `rt try` builds in a folder of its own, which is gone at its
end. So the example's flash is a pipe here: while the program waits for its bytes, the file that it
was loaded from is copied to OUT.
"""

import errno
import os
import shutil
import subprocess
import sys
import tempfile
import time

CRATE = "crates/boot_cli"
FLASH = CRATE + "/data/flash"
SECONDS = 10  # rt try stops a program after 60


def start(pipe, folder):
    """Starts the build in the folder, and then the program on the pipe."""
    words = ["rt", "try", "--data", "otp=data/otp", "--", "boot", pipe, "otp", "arm", "normal"]
    return subprocess.Popen(words, cwd=CRATE, env={**os.environ, "TMPDIR": folder})


def opened(pipe, run):
    """The pipe's end for writing, once the program reads from it; None where the run has ended."""
    while run.poll() is None:
        try:
            return os.open(pipe, os.O_WRONLY | os.O_NONBLOCK)
        except OSError as error:
            if error.errno != errno.ENXIO:
                raise
        time.sleep(0.02)
    return None


def below(process):
    """The processes that a process has started, and those that they have."""
    try:
        tasks = os.listdir(f"/proc/{process}/task")
        files = [open(f"/proc/{process}/task/{it}/children", encoding="ascii") for it in tasks]
    except OSError:  # it has ended
        return []
    started = []
    for file in files:
        with file:
            started += file.read().split()
    return [*started, *(it for child in started for it in below(child))]


def has_open(process, path):
    try:
        folder = f"/proc/{process}/fd"
        return path in [os.readlink(f"{folder}/{it}") for it in os.listdir(folder)]
    except OSError:  # it has ended, or opens a file just now
        return False


def reader_of(pipe, run):
    """The process of the run that reads from the pipe; None where it does not show itself."""
    deadline = time.monotonic() + SECONDS
    while run.poll() is None and time.monotonic() < deadline:
        for process in below(run.pid):
            if has_open(process, pipe):
                return process
        time.sleep(0.02)
    return None


def loaded_from(process, folder):
    """The file of the folder from which a process has code; a loader may stand before it."""
    with open(f"/proc/{process}/maps", encoding="utf-8") as file:
        parts = [line.split(maxsplit=5) for line in file]
    for part in parts:
        if len(part) == 6 and "x" in part[1] and part[5].startswith(folder + os.sep):
            return part[5].strip()
    return None


def keep(file, out):
    os.makedirs(os.path.dirname(out) or ".", exist_ok=True)
    shutil.copyfile(file, f"{out}.new")
    os.chmod(f"{out}.new", 0o755)
    os.replace(f"{out}.new", out)


def feed(end):
    """Writes the example's flash into the pipe."""
    os.set_blocking(end, True)
    with open(FLASH, "rb") as file, os.fdopen(end, "wb") as pipe:
        shutil.copyfileobj(file, pipe)


def main():
    if len(sys.argv) != 2:
        sys.exit(__doc__)
    with tempfile.TemporaryDirectory() as made:
        folder = os.path.realpath(made)
        pipe = os.path.join(folder, "flash")
        os.mkfifo(pipe)
        run = start(pipe, folder)
        end = opened(pipe, run)
        if end is not None:
            process = reader_of(pipe, run)
            file = loaded_from(process, folder) if process else None
            if file:
                keep(file, sys.argv[1])
            else:
                print("demo.py: the built program is not found, so none is kept", file=sys.stderr)
            feed(end)
        sys.exit(run.wait())


main()
