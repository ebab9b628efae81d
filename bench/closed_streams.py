#!/usr/bin/env python3
"""Runs each command of `dye` with each of the eight combinations of closed standard streams.

Usage: closed_streams.py PROGRAM   (the proved program, for example crates/dye_cli/out/dye_cli)

With standard output open, the status, the text and every file have to be as with all three open.
With it closed, the status has to be 4 and every file as before or, for a command that writes a
certificate, that certificate whole. Nothing may come out of standard error. The files are those of
examples/, in a folder of their own that is removed afterwards.
"""

import itertools
import os
import shutil
import subprocess
import sys
import tempfile

# The words of each command. A command that is added gets a line here.
COMMANDS = [
    "ks swatches.csv rust",
    "xyz swatches.csv rust light.csv",
    "lab swatches.csv rust light.csv",
    "diff swatches.csv rust rust2 light.csv 20 10 1000",
    "show olive.toml 62,15,33,0",
    "predict olive.toml olive.cert",
    "correct olive-batch.toml batch.cert",
    "check olive.toml checked.cert",
    "demo 1",
    "no command",
    "show olive.toml 62,15,33,5",
    "ks missing.csv rust",
]

STREAMS = [" <&-", " >&-", " 2>&-"]


def files_of(folder):
    """The bytes of each file in the folder, by its name."""
    files = {}
    for name in sorted(os.listdir(folder)):
        with open(os.path.join(folder, name), "rb") as file:
            files[name] = file.read()
    return files


def run(program, command, closed):
    """Status, output, errors and files after a command with these streams closed."""
    with tempfile.TemporaryDirectory() as folder:
        examples = os.path.join(os.path.dirname(os.path.abspath(__file__)), "..", "examples")
        for name in os.listdir(examples):
            shutil.copy(os.path.join(examples, name), folder)
        first = [program, "predict", "olive.toml", "checked.cert"]
        subprocess.run(first, cwd=folder, stdout=subprocess.DEVNULL, check=True)
        shell = f'exec "{program}" {command}' + "".join(closed)
        done = subprocess.run(["sh", "-c", shell], cwd=folder, capture_output=True)
        return done.returncode, done.stdout, done.stderr, files_of(folder)


def main():
    if len(sys.argv) != 2:
        sys.exit(__doc__)
    program = os.path.abspath(sys.argv[1])
    wrong = 0
    for command in COMMANDS:
        status, text, _, files = run(program, command, [])
        for some in itertools.product([False, True], repeat=3):
            closed = [stream for stream, is_closed in zip(STREAMS, some) if is_closed]
            want = (4, b"", b"", files) if some[1] else (status, text, b"", files)
            got = run(program, command, closed)
            if got != want:
                wrong += 1
                changed = [name for name in got[3] if got[3][name] != files.get(name)]
                print(f"{command}{''.join(closed)}: status {got[0]} for {want[0]}, changed {changed}")
    print(f"{len(COMMANDS)} commands, 8 combinations each: {wrong} wrong")
    sys.exit(1 if wrong else 0)


main()
