"""Has the program proved: `rt ci` proves the crates that it is made of, from nothing or as it kept them on this machine."""
import os
import re
import shutil
import subprocess
import sys
import tempfile
import time

from sources import PROGRAM, PROVED_FROM, crates_of_program, lines_of_crates

OF_A_CRATE = re.compile(r"rt: (\w+) (?:proved|is kept: .*)")
STORED_RUN = ("stdin", "stdout")


def copy_of(top, crates, copy):
    """A repository of these crates alone, without their must-fail edits."""
    os.mkdir(f"{copy}/.git")  # where rt's search for the repository's root ends
    shutil.copy(f"{top}/HANDLES", copy)
    lines = lines_of_crates(top)
    with open(f"{copy}/crates.txt", "w", encoding="utf-8") as kept:
        kept.writelines(f"{lines[crate]}\n" for crate in crates)
    for crate in crates:
        for part in filter(os.path.isdir, (f"{top}/crates/{crate}/{it}" for it in PROVED_FROM)):
            shutil.copytree(part, f"{copy}/crates/{crate}/{os.path.basename(part)}")
    for file in STORED_RUN:
        shutil.copy(f"{top}/crates/{PROGRAM}/{file}", f"{copy}/crates/{PROGRAM}")


def prove(top, crates, copy):
    """Proves the copy and tells how far it is. Ends the run with status 70 where something isn't proved."""
    began, said, done = time.monotonic(), [], 0
    with subprocess.Popen(["rt", "ci"], cwd=copy, stdout=subprocess.PIPE, stderr=subprocess.STDOUT, text=True, errors="replace") as run:
        for line in run.stdout:
            said.append(line)
            proved = OF_A_CRATE.match(line)
            if proved:
                done += 1
                minutes, seconds = divmod(int(time.monotonic() - began), 60)
                print(f"monitor: {minutes}:{seconds:02}: {done} of {len(crates)} crates are proved, now {proved[1]}", file=sys.stderr, flush=True)
    if run.returncode:
        print("".join(said[-40:]), "monitor: the program is not proved: see above", sep="", file=sys.stderr)
        sys.exit(70)


def prove_program(top, keep):
    """Hands the proved program to `keep`, with the tree that it was proved from."""
    crates = crates_of_program(top)
    with tempfile.TemporaryDirectory() as copy:
        copy_of(top, crates, copy)
        print(f"monitor: the {len(crates)} crates that the program is made of are proved, each once on this machine", file=sys.stderr)
        prove(top, crates, copy)
        keep(f"{copy}/crates/{PROGRAM}/out/{PROGRAM}", copy)
