"""The seeds of crates' edits that there are already: what `rt ci` proves in this run, or what checks of crates as they stand
proved on this machine before. No verdict rests on them: a check looks what of a seed still holds, and the functions as they stand
are proved over it before an edit is tried."""
import contextlib
import glob
import hashlib
import os
import shutil


def found_at(path):
    """When a folder of a check's work was changed, with its path; None where it is gone, or is another one."""
    with contextlib.suppress(OSError):
        return None if path.endswith("offers") else (os.path.getmtime(path), path)
    return None


class Seeds:
    """The last seed of each crate, beside what `rt ci` keeps, under a sum of the libraries below it: over others it is no use. In
    `proofs`, where it is given, stands what `rt ci` proved of each crate."""

    def __init__(self, rt, store, proofs):
        self.rt, self.store, self.folder, self.proofs = rt, store, f"{store.at}/seeds", proofs

    def path(self, crate):
        libraries = repr((self.rt.kit_sum(), [self.rt.stamp_of(it, {}) for it in crate.deps]))
        return f"{self.folder}/{crate.name}.{hashlib.sha256(libraries.encode()).hexdigest()[:16]}"

    def sources(self, crate, to):
        """What the seed of a crate may be made from, the better first, and where each goes. The folder of a check's work has a name
        of the prover's, which the newest seed tells; where there is none yet, what was just proved is no use."""
        kept = sorted(found for found in map(found_at, glob.glob(f"{self.folder}/*/antt-checked-*")) if found)
        if self.proofs and kept:
            yield f"{self.proofs}/{crate.name}", f"{to}/{os.path.basename(kept[-1][1])}"
        yield self.path(crate), to

    def copy(self, crate, to):
        """Whether there was a seed of the crate, which now stands in this folder too."""
        for source, copy in self.sources(crate, to):
            try:
                self.rt.linked(source, copy)
                return True
            except (OSError, shutil.Error):  # there is none, or another run puts its own there
                shutil.rmtree(to, ignore_errors=True)
        return False

    def keep(self, crate, seed):
        """Moves a seed here, in place of those of the crate that were here."""
        if not self.store.has_room():
            return
        with contextlib.suppress(OSError, shutil.Error):
            os.makedirs(self.folder, exist_ok=True)
            moved = f"{self.folder}/new-{os.getpid()}-{crate.name}"
            shutil.move(seed, moved)
            for name in os.listdir(self.folder):
                if name.startswith(f"{crate.name}."):
                    shutil.rmtree(f"{self.folder}/{name}", ignore_errors=True)
            os.rename(moved, self.path(crate))
