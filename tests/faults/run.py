#!/usr/bin/env python3
"""Plants faults, one at a time, in a copy of the reference that stands in for
the library, and sees that the comparison finds each. Run from the root:

    tests/faults/run.py [--alike] [--table FILE] [CHECK...]

With checks (numbers, `package`, `buffer`, `lot`, `demand3`, `edition3`, `digest`, `writer`,
`version`, `requirement`), only the faults of those.
With --alike the reference that is compared with gets the same fault, as if both
had misread the paper: what is found then is found by what the maker of the
packages knows, by demand 3, or by the reference's own samples. With --table the
rows for docs/TESTING.md are written to FILE.

It is no part of tests/run.sh: it tests the tests.
"""

import argparse
import datetime
import pathlib
import re
import shutil
import subprocess
import sys
import time

import digest_faults
import gap_faults
import lot_faults
import package_faults
import reading_faults
import version_faults
import writer_faults

OUT = pathlib.Path("target/host/faults")
REFERENCE = pathlib.Path("tests/reference")
# Beside copies of tests/compare, tests/data and tests/vectors, which the samples include.
COPY = OUT / "tests/reference"
RUST = ["rustc", "--edition", "2021", "-A", "warnings", "-C", f"incremental={OUT / 'incremental'}"]
FAULTS = (package_faults.FAULTS + gap_faults.FAULTS + reading_faults.FAULTS + lot_faults.FAULTS
          + digest_faults.FAULTS + writer_faults.FAULTS + version_faults.FAULTS)

CONTENT = "one damage to an accepted package"
# The families to try for the writer's faults before all others.
WRITING = [
    "one wrong thing to write", "written packages", "names", "numbers of entries", "repeated tags",
    "repeated tags of lists",
    "sizes of written packages", "buffers to write to", "translated strings to write",
]
# The family to try before all others; for the checks that aren't here, "one damage".
FIRST = {
    1: "editions", 2: "sizes", 3: "cuts", 5: "cuts", 13: "repeated tags of an index",
    14: CONTENT, 15: CONTENT, 16: CONTENT, 17: CONTENT, 18: CONTENT,
    19: "lengths of books", 20: "kinds", 21: "kinds", 22: "oxides and milligrams",
    23: CONTENT, 24: "dose buffers", 25: "right packages", 26: "right packages",
    27: "digests of packages", 28: "gaps", "digest": "digests",
    "package": "right packages", "buffer": "dose buffers", "demand3": "kinds",
    "lot": "lots", "edition3": "two editions",
    33: "sizes of written packages", 34: "buffers to write to", "writer": "written packages",
    "version": "version texts", "requirement": "requirements",
}
# Those to try next.
NEXT = {
    10: ["translated strings"], 12: ["translated strings"], 13: ["one damage"], 17: ["locales"],
    26: ["translated strings"], 28: ["gaps of accepted packages", "gaps of written packages"], "demand3": ["locales"],
    "lot": ["dose buffers", "kinds"], "edition3": ["editions", "lots", "kinds", "gaps of accepted packages"],
    "digest": ["digest buffers", "large digests", "a digest of over 2^32 bits"],
    "version": [
        "single bytes of version texts", "numbers of version texts", "letters of version texts",
        "many runs of version texts", "parts of one version text", "long version texts",
    ],
    "requirement": [
        "flags of requirements", "names of requirements", "types and counts of requirements",
        "damaged requirements",
    ],
}
SAMPLES = "the reference's own samples"


def rustc(*words):
    subprocess.run([*RUST, *words], check=True)


def build_library():
    rustc("-C", "opt-level=1", "--crate-type", "cdylib", COPY / "standin.rs",
          "-o", OUT / "libstation.so")


def build_compare(folder):
    """The comparison, with the reference in this folder."""
    reference = OUT / "libreference.rlib"
    rustc("-C", "opt-level=1", "--crate-type", "rlib", "--crate-name", "reference",
          folder / "lib.rs", "-o", reference)
    rustc("-C", "opt-level=1", "--cfg", "reading", "tests/compare/main.rs",
          "--extern", f"reference={reference}",
          "-C", f"link-arg={OUT / 'libstation.so'}", "-o", OUT / "compare")


def compare(*family):
    """The family that found a difference and what was said of it, or None."""
    done = subprocess.run(
        [OUT / "compare", "tests/data", OUT / "difference.rpm", *family],
        capture_output=True, text=True,
    )
    if done.returncode == 0:
        return None
    difference = re.search('DIFFERENCE in "(.*)", package .*\n(.*)', done.stderr)
    panic = re.search("panicked at .*\n(.*)", done.stderr)
    return difference.groups() if difference else ("a panic", panic[1])


def samples():
    """The same for the reference's own tests, on the copy."""
    rustc("--test", COPY / "lib.rs", "-o", OUT / "reference_test")
    done = subprocess.run([OUT / "reference_test"], capture_output=True, text=True)
    if done.returncode == 0:
        return None
    return SAMPLES, ", ".join(re.findall(r"^test (\S+) \.\.\. FAILED", done.stdout, re.M))


def plant(right, old, new):
    """Writes the copy with one text changed."""
    for name, text in right.items():
        (COPY / name).write_text(text if name.endswith("samples.rs") else text.replace(old, new))


def families(check):
    """Those to try before all others."""
    first = [FIRST.get(check, "one damage"), *NEXT.get(check, [])]
    return WRITING if check == 32 else first + WRITING if check in (33, 34, "writer") else first


def find(check, alike):
    build_library()
    if alike:
        build_compare(COPY)
    found = next(filter(None, map(compare, families(check))), None) or compare()
    if alike:
        found = found or samples()
    return found


def rows(results):
    """A row of Markdown for each check."""
    checks = sorted({check for check, _, _ in results}, key=lambda c: (isinstance(c, str), c))
    for check in checks:
        families = [family for number, _, family in results if number == check]
        found = [family for family in families if family]
        first = found[0] if found else "none"
        yield f"| {check} | {len(families)} | {len(found)} | {first} |"


def main():
    parser = argparse.ArgumentParser()
    parser.add_argument("--alike", action="store_true")
    parser.add_argument("--table", type=pathlib.Path)
    parser.add_argument("checks", nargs="*")
    words = parser.parse_args()
    begun = time.monotonic()
    COPY.mkdir(parents=True, exist_ok=True)
    for name in ["compare", "data", "vectors"]:
        copy = COPY.parent / name
        if copy.is_symlink():
            copy.unlink()
        shutil.rmtree(copy, ignore_errors=True)
        shutil.copytree(pathlib.Path("tests", name), copy)
    shutil.copy("tests/faults/standin.rs", COPY)
    shutil.copy(REFERENCE / "tables.txt", COPY)
    right = {path.name: path.read_text() for path in REFERENCE.glob("*.rs")}
    for _, what, old, _ in FAULTS:
        texts = [text for name, text in right.items() if not name.endswith("samples.rs")]
        if sum(text.count(old) for text in texts) != 1:
            sys.exit(f"faults: {what}: its text isn't found once")
    plant(right, "", "")
    build_library()
    build_compare(REFERENCE)
    if compare():
        sys.exit("faults: a difference without a fault")

    results = []
    for check, what, old, new in FAULTS:
        if words.checks and str(check) not in words.checks:
            continue
        plant(right, old, new)
        family, said = find(check, words.alike) or (None, "NOT FOUND")
        results.append((check, what, family))
        print(f"{check:>2} {what}: {said}" + (f" [{family}]" if family else ""), flush=True)
    found = sum(1 for _, _, family in results if family)
    minutes = (time.monotonic() - begun) / 60
    print(f"faults: {found} of {len(results)} found, {minutes:.1f} minutes")
    if words.table:
        date = datetime.date.today().isoformat()
        total = f"{found} of {len(results)} found on {date}, in {minutes:.1f} minutes."
        missed = [f"Not found: {check}, {what}." for check, what, family in results if not family]
        words.table.write_text("\n".join([*rows(results), "", total, *missed, ""]))
    sys.exit(found != len(results))


main()
