"""The crates that the monitor stands on, and sums by which a built program is known to be that of the sources as they are."""
import hashlib
import os

PROGRAM = "scm_monitor"
LIBRARY = "scm_embed"
COMPILED_FROM = ("src",)  # what a program is compiled from; a proof reads the contracts' definitions and the proofs too
PROVED_FROM = ("src", "specs", "proofs")


def lines_of_crates(top):
    """Each crate's line in crates.txt, by its name."""
    with open(f"{top}/crates.txt", encoding="utf-8") as lines:
        listed = [line.partition("#")[0].strip() for line in lines]
    return {line.partition(":")[0].split()[0]: line for line in listed if ":" in line}


def read_crates(top):
    """Each crate with the crates of this repository that it stands on."""
    lines = lines_of_crates(top)
    return {crate: [name for name in line.partition(":")[2].split() if name in lines] for crate, line in lines.items()}


def below(crates, crate):
    """The crate's libraries, lowest first, without the crate."""
    found = []
    for name in crates[crate]:
        found += [it for it in [*below(crates, name), name] if it not in found]
    return found


def crates_of(top, crate):
    """The crates that this one is made of, lowest first."""
    return [*below(read_crates(top), crate), crate]


def crates_of_program(top):
    return crates_of(top, PROGRAM)


def files_of(top, crate, parts):
    for part in parts:
        for folder, folders, files in os.walk(f"{top}/crates/{crate}/{part}"):
            folders.sort()
            yield from (f"{folder}/{file}" for file in sorted(files))


def sum_of(top, parts, crate=PROGRAM):
    """A sum of all files in these parts of the crates that this one is made of, and of their lines in crates.txt."""
    crates, lines, found = crates_of(top, crate), lines_of_crates(top), hashlib.sha256()
    found.update("\n".join(lines[crate] for crate in crates).encode())
    for path in (it for crate in crates for it in files_of(top, crate, parts)):
        with open(path, "rb") as file:
            content = file.read()
        found.update(f"\n{os.path.relpath(path, top)} {len(content)}\n".encode())
        found.update(content)
    return found.hexdigest()


class Built:
    """A program that was built here, out/WAY/scm_monitor, or the library, out/WAY/libscm.a or scm.wasm, and beside it the sum of
    what it was built from."""

    def __init__(self, top, way, parts, crate=PROGRAM, name=None):
        self.top, self.parts, self.crate = top, parts, crate
        tail = f"-of-{name}" if name else "" if crate == PROGRAM else "-of-library"
        self.program, self.sum = f"{top}/out/{way}/{name or (PROGRAM if crate == PROGRAM else 'libscm.a')}", f"{top}/out/{way}/sum{tail}"

    def is_current(self):
        try:
            with open(self.sum, encoding="utf-8") as kept:
                return os.path.exists(self.program) and kept.read() == sum_of(self.top, self.parts, self.crate)
        except OSError:
            return False

    def keep(self, program, sum_of_sources):
        """Keeps a program that was built from sources of this sum. Whoever runs the one before goes on with it."""
        import contextlib
        import shutil

        os.makedirs(os.path.dirname(self.program), exist_ok=True)
        with contextlib.suppress(FileNotFoundError):
            os.remove(self.sum)  # it is no sum of what is put beside it now
        shutil.copy(program, f"{self.program}.new")
        os.replace(f"{self.program}.new", self.program)
        with open(self.sum, "w", encoding="utf-8") as kept:
            kept.write(sum_of_sources)


def proved(top, crate=PROGRAM):
    return Built(top, "proved", PROVED_FROM, crate)


def compiled(top, crate=PROGRAM):
    return Built(top, "compiled", COMPILED_FROM, crate)
