#!/usr/bin/env python3
"""Plants the faults of tests/faults, one at a time, in a stand-in for the library, and
says after how many executions fuzzing finds each. Run from the root:

    tests/fuzz/faults.py [--libfuzzer MINUTES] [CHECK|CHECK:WHAT...]

Without names, all faults; 32, 33, 34 and `writer` are the writer's, `version` and `requirement`
those of station_compare and station_meets. The short run of tests/fuzz.sh is used, or libFuzzer
for at most so many minutes, each time from the corpus alone. It is no part of tests/run.sh.
"""
import os
import pathlib
import re
import shutil
import subprocess
import sys

sys.dont_write_bytecode = True
sys.path.insert(0, 'tests/faults')
import digest_faults  # noqa: E402
import gap_faults  # noqa: E402
import lot_faults  # noqa: E402
import package_faults  # noqa: E402
import reading_faults  # noqa: E402
import version_faults  # noqa: E402
import writer_faults  # noqa: E402

FAULTS = (package_faults.FAULTS + gap_faults.FAULTS + reading_faults.FAULTS + lot_faults.FAULTS
          + digest_faults.FAULTS + writer_faults.FAULTS + version_faults.FAULTS)
OUT = pathlib.Path('target/host/fuzz-faults')
COPY = OUT / 'reference'
LIBRARY = OUT / 'libstation.so'
RUST = ['rustc', '--edition', '2021', '-O', '-A', 'warnings']
SHORT_RUN = '30000'  # as in tests/fuzz.sh
CORPUS = len(list(pathlib.Path('tests/fuzz/corpus').iterdir()))


def plant(right, old, new):
    for name, text in right.items():
        (COPY / name).write_text(text.replace(old, new))
    subprocess.run([*RUST, '--crate-type', 'cdylib', COPY / 'standin.rs', '-o', LIBRARY], check=True)


def fuzz(*minutes):
    """What tests/fuzz.sh says on the stand-in."""
    shutil.rmtree('target/host/fuzz/found', ignore_errors=True)
    done = subprocess.run(['tests/fuzz.sh', *minutes], env=os.environ | {'STATION_LIB': str(LIBRARY)},
                          capture_output=True, text=True, errors='replace')
    return done.returncode, done.stdout + done.stderr


def short_run():
    """The same over the stand-in as it is now, built once."""
    done = subprocess.run(['target/host/fuzz/plain', 'tests/fuzz/corpus', OUT / 'difference.rpm', SHORT_RUN],
                          capture_output=True, text=True)
    return done.returncode, done.stdout + done.stderr


def executions(said, minutes):
    """How many it took; 0 if the corpus alone shows the fault."""
    if minutes:
        return max(0, int(re.search(r'(\d+) executions in', said)[1]) - CORPUS)
    case = re.search(r'package (\d+) ', said)
    return max(0, int(case[1]) - CORPUS) if case else None


def main():
    words = sys.argv[1:]
    minutes = words[1:2] if words[:1] == ['--libfuzzer'] else []
    names = words[2:] if minutes else words
    chosen = [fault for fault in FAULTS
              if not names or {str(fault[0]), f'{fault[0]}:{fault[1]}'} & set(names)]
    COPY.mkdir(parents=True, exist_ok=True)
    shutil.copy('tests/faults/standin.rs', COPY)
    right = {path.name: path.read_text() for path in pathlib.Path('tests/reference').glob('*.rs')
             if not path.name.endswith('samples.rs')}
    plant(right, '', '')
    if not minutes and fuzz()[0] != 0:
        sys.exit('faults: a difference without a fault')
    missed = []
    for number, what, old, new in chosen:
        plant(right, old, new)
        status, said = fuzz(*minutes) if minutes else short_run()
        if status == 0:
            missed.append(what)
            print(f'{number}:{what}: NOT FOUND', flush=True)
            continue
        count = executions(said, minutes)
        print(f'{number}:{what}: {count if count else "the corpus"}', flush=True)
    print(f'faults: {len(chosen) - len(missed)} of {len(chosen)} found')
    sys.exit(bool(missed))


main()
