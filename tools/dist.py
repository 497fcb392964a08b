#!/usr/bin/env python3
"""Writes a tarball of an installed tree, with its SHA-256 beside it.

    dist.py TREE FOLDER

TREE is what `make install` has put together. The tarball is named after the version that the
program prints, and is the same for the same tree. It says whether the program is linked statically.
"""

import gzip
import hashlib
import os
import platform
import subprocess
import sys
import tarfile

PROGRAM = "bin/dugnatsew"


def version(tree):
    ran = subprocess.run([os.path.join(tree, PROGRAM), "--version"], capture_output=True, text=True, check=True)
    return ran.stdout.split()[1]


def libraries(tree):
    """The libraries that the program wants of a machine; none where it is linked statically."""
    ran = subprocess.run(["ldd", os.path.join(tree, PROGRAM)], capture_output=True, text=True, check=False)
    return [line.split()[0] for line in ran.stdout.splitlines() if line.strip()] if ran.returncode == 0 else []


def plain(member):
    """A member without its owner and its time, so that the tarball is the same for the same tree."""
    member.uid = member.gid = 0
    member.uname = member.gname = "root"
    member.mtime = 0
    return member


def write(tree, name, path):
    with open(path, "wb") as out, gzip.GzipFile(fileobj=out, mode="wb", mtime=0, filename="") as packed:
        with tarfile.open(fileobj=packed, mode="w") as tar:
            tar.add(tree, arcname=name, filter=plain)


def main():
    if len(sys.argv) != 3:
        sys.exit(__doc__)
    tree, folder = sys.argv[1:]
    name = f"dugnatsew-{version(tree)}-{platform.machine()}-linux"
    path = os.path.join(folder, f"{name}.tar.gz")
    write(tree, name, path)
    with open(path, "rb") as file:
        digest = hashlib.sha256(file.read()).hexdigest()
    with open(f"{path}.sha256", "w", encoding="ascii") as file:
        file.write(f"{digest}  {os.path.basename(path)}\n")
    wanted = libraries(tree)
    print(f"{path} sha256={digest}")
    print(f"It wants {', '.join(wanted)}" if wanted else "It is linked statically")


main()
