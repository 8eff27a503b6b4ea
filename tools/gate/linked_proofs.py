"""What `rt ci` proves of crates, kept by links as the seed of their edits, which else is proved once more.

The prover writes each part of a crate's proof, once it is done, into a folder of its own, which it removes at the end."""
import contextlib
import glob
import os
import re
import threading

PAUSE = 0.5  # seconds; the last parts that it misses are proved again
CRATE = re.compile(r"Rattle-(\w+)-proofs\.")
DONE = ".oantt"  # how the name of a part ends that is done


class LinkedProofs:
    """Links what is proved of these crates below the folder `at` into folders of `to`, one a crate, until it is told to stop."""

    def __init__(self, at, to, crates):
        self.at, self.to, self.crates, self.linked, self.is_over = at, to, set(crates), {}, threading.Event()
        self.thread = threading.Thread(target=self.run, daemon=True)
        self.thread.start()

    def run(self):
        while not self.is_over.wait(PAUSE):
            for folder in glob.glob(f"{self.at}/rattle-logic-built-locked-*"):
                with contextlib.suppress(OSError):  # it goes while it is read
                    self.link(folder)

    def link(self, folder):
        crate = next((it[1] for it in map(CRATE.match, os.listdir(folder)) if it), None)
        if crate not in self.crates:
            return
        linked = self.linked.setdefault(folder, set())
        for at, _, names in os.walk(folder):
            to = at.replace(folder, f"{self.to}/{crate}")
            os.makedirs(to, exist_ok=True)
            for name in names:
                if name.endswith(DONE) and (at, name) not in linked:
                    with contextlib.suppress(FileExistsError):
                        os.link(f"{at}/{name}", f"{to}/{name}")
                    linked.add((at, name))

    def stop(self):
        self.is_over.set()
        self.thread.join()
