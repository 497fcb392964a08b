#!/usr/bin/env python3
"""Compares docs/FAULTS.md with the texts in the code of the program.

    faults.py

Run it at the top of the repository. Each text that the code of the program can put has to stand in
docs/FAULTS.md, in code marks, or below among the texts that tell no fault; and each fault of that
page has to stand in the code. Numbers and names that vary count as equal. The last line is
`N faults are explained, M texts are not, K faults are in no code`, and the status is 0 where M and
K are 0.
"""

import pathlib
import re
import sys

PAGE = "docs/FAULTS.md"
CODE = "crates/*/src/**/*.rt"
# The names of JSON members, which the texts of their faults have.
FIELDS = "crates/table_json/src/fault.rt"
# Crates and files that put no text by themselves: what they have in quotes is read, or is tested.
NO_CRATE = re.compile(r"crates/(boot_cli|table_json|check_require|svg_marks|test_\w+)/")
NO_FILE = re.compile(r"(^|[/_])(tests?|examples|laws|usage|words|values)(/|\.rt$)")

# A file whose faults are put in parts: what begins with a blank goes on with the part before it.
IN_PARTS = "crates/text_lines/src/faults.rt"
# A file whose lines are put by two calls, of a name and a window or a partition.
CAVEATS = "crates/cli_caveats/src/texts.rt"
# It puts the fault of a table behind a word.
JSON = "crates/cli_inputs/src/json.rt"
# It puts the fault of a line of a text behind the line's number.
TEXTS = "crates/cli_scripts/src/texts.rt"

# It puts a member's name behind a word, and a reason behind another.
COUNTS = "crates/check_lines/src/counting.rt"
MEMBERS = "crates/check_require/src/members.rt"

# Texts that tell no fault.
OTHERS = """
end|taken|done|buy done|cut armed|none|yes|no|running|bootsel|0x
{}|{} {}
gen n={} sha256={}|plan {} bytes={}|sealed bytes={} block={}|uf2 blocks={}
window={}+{}|block={} pc={} sp={} limit={}|version={}.{}
start {} {} {} rollback={} trial={}|image {} ok {} rollback={}|data {}|end state={}
table slot={} {} partitions={}|table bytes=4096 partitions={}
input {}: {}|image {} fault={}
#|{} {}{}{}|{} token={}|{}+{}|before|buy|command|command bad-magic|copy blocks={}|cut|device
enter-xip|erase|exclusive|exit-xip|firm|flags={}|kind={}|normal|otp-read|otp-write
partition={}|power|program|raise|ram={}|read|reboot|row={} count={} ecc={}|script records={}|table
target={}|uf2 number={} count={} address={} family={}|update={}|write
uf2 number={} count={}|{}{}|{} because={}|{} name={} id={} families={}|{} trial={}|{}{}{}{}|\\\\x{}|a={}|absolute|alone|arm|both|only
otp rollback-required={} flash-off={} slot-size={}|owner={}|pair|r|rights={} link={} ignored={} reboot={}
riscv|rp2040|rp2350-arm-ns|rp2350-arm-s|rp2350-riscv|rw|secure={},nonsecure={},bootloader={}|singleton
slot|slot {} fault={}|slots|table {} partitions={} singleton={}|table slot={} because={}|tie|unit
unit {} not-reached|unit {} takes|updated|version|w|whole
{} {} to {}|{} to {}|chart steps={} former={} finished={} chance={}|steps|steps 0 to {}|within
{} starts|free|map windows={}|partition {} name={} families={}
caveat {name} {}|caveat {name} partition={}|caveat {name} {} at={}|{} {} bytes={}|{} {}{}|{} rows={}|cmd 0x|load|plan|s
{} event={} {}{}|{}{}{}|{}{}{}{}{}|{}{}{}{}{}{}{}|former {}end {}|effect image={} table={} flash={}|records ok
written {} by={} {}|starts {} loose={}|starts none|fallback {} {}|fallback none|ok {} rollback={} trial={} hash={} firm={}
law session={}|law boot={}|law buy={}|confined {}|kept|open|open because={}|{} former={} end={} cuts={}
cuts former={} finished={} whole={} tail={} mixed={} bootsel={} falls={}|cuts {} {} falls={}
former={} finished={} whole={}|tail={} mixed={} bootsel={}
again no step={}|again no table|again no target|again yes|data {} of={} written={} torn={}|torn
records refused={} first={}|records unfinished={}
gated|stage {} bytes={} order={}|staged
"""


def plain(text):
    """A text with `*` for what varies in it, and without that at its end."""
    text = re.sub(r"\{[^}]*\}|\b[A-Z]+\b|0x[A-Z]+\b", "*", text.replace("\\n", ""))
    text = text.replace("0x*", "*").removeprefix("uf2 * ")  # such a line is put in parts
    return re.sub(r"( \*)+$", "", text).strip()


def code_files():
    files = sorted(it.as_posix() for it in pathlib.Path(".").glob(CODE))
    return [it for it in files if not NO_CRATE.match(it) and not NO_FILE.search(it)]


def joined(texts):
    """Whole texts of parts, with `{}` for what is put between and behind them."""
    whole = []
    for text in texts:
        if text.startswith(" ") and whole:
            whole[-1] += text + "{}"
        else:
            whole.append(text + "{}" if text.endswith(" ") else text)
    return [it.strip() for it in whole]


def code_texts(files):
    """The texts in the code, each with a file that has it."""
    found = {}
    for file in files:
        code = pathlib.Path(file).read_text(encoding="utf-8")
        code = re.sub(r"(?m)^\s*(//|ghost use|#\[).*$", "", code)
        code = re.sub(r"(?s)\b(requires|ensures)\b[^{]*\{.*?\}\n", "\n", code)
        if file == CAVEATS:
            code = re.sub(r'window_text\(alloc, "', '("caveat ', code)
            code = re.sub(r'partition_text\(alloc, "([^"]*)"', r'("caveat \1 partition={}"', code)
            code = re.sub(r'block_text\(alloc, "([^"]*)"', r'("caveat \1 {} at={}"', code)
        if file == JSON:
            faults = re.findall(r'TableFault::\w+.*?"([^"]*)"', code)
            code += "".join(f'"table {it}"\n' for it in faults)
        if file == TEXTS:
            code = re.sub(r'(Fault::.*format!\(in alloc; ")', r"\1text {n} ", code)
            code = code.replace('"text {n} {fault}"', '""')
        if file == COUNTS:
            code = re.sub(r'(Reason::\w+ => ")', r"\1open because=", code)
            members = re.findall(r'Member::\w+ => "(\w+)"', pathlib.Path(MEMBERS).read_text(encoding="utf-8"))
            code = code.replace('"unmet {name}\\n"', " ".join(f'"unmet {it}"' for it in members))
        texts = re.findall(r'"((?:[^"\\]|\\.)*)"', code)
        for text in joined(texts) if file == IN_PARTS else texts:
            # what begins or ends with a blank or a sign is a part of a line
            if re.search(r"[a-z]", text) and not re.search(r"^[ .+]|[ =+]$", text):
                found.setdefault(plain(text), file)
    return found


def marks(text):
    return {plain(it) for it in re.findall(r"`([^`]+)`", text)}


def page_names():
    """The faults that have a row, the names that other lines explain, and the names of members."""
    rows, others, fields = set(), set(), set()
    for line in pathlib.Path(PAGE).read_text(encoding="utf-8").splitlines():
        cells = line.strip("| ").split(" | ")
        if line.startswith("FIELD is "):
            fields |= marks(line)
        elif not line.startswith("|") or "PLACE is " in line:
            others |= marks(line)
        if line.startswith("|"):
            rows |= {plain(it.strip("`")) for it in cells[:2] if re.fullmatch(r"`[^`]+`", it)}
    return rows - {"", "status="}, others, fields


def main():
    rows, others, fields = page_names()
    others |= {plain(it) for line in OTHERS.split("\n") for it in line.split("|")}
    texts, members = code_texts(code_files()), code_texts([FIELDS])
    missing = {it: texts[it] for it in sorted(texts) if it not in rows | others}
    missing.update({it: members[it] for it in sorted(members) if it not in fields})
    for text, file in missing.items():
        print(f"{PAGE} does not have `{text}`, of {file}")
    gone = sorted(rows - set(texts)) + sorted(fields - set(members))
    for text in gone:
        print(f"no code has `{text}`, of {PAGE}")
    print(f"{len(rows)} faults are explained, {len(missing)} texts are not, "
          f"{len(gone)} faults are in no code")
    sys.exit(1 if missing or gone or not rows else 0)


main()
