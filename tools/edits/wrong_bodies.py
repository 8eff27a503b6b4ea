"""Must-fail edits, the functions that they change, and batches of edits that can be judged apart from one check."""
import os
import re
from dataclasses import dataclass

WHY = "# why: "  # begins an edit's first line, which says what a user would see; rt reads no line that begins so
OWNER = re.compile(r"(?m)^impl(?:<.*?>)? (?:(\w+)(<\w+>)?.* for )?(\w+).*\{$")
FUNCTION = re.compile(r"(?m)^([ \t]*)(?:pub(?:\([^)]*\))? )?(?:const |unsafe |extern \"C\" )*fn (\w+)")


@dataclass(frozen=True)
class Function:
    file: str
    name: str
    owner: str  # what it is a method of, as the prover names it; empty where it is none
    first: int  # its first and last line, counted from 1, with its attributes, where an older prover begins it
    last: int
    body: str

    def holds(self, file, line):
        return file == self.file and self.first <= line <= self.last

    def calls(self, other):
        return re.search(rf"\b{other.name}\b", self.body) is not None

    def module(self):
        return re.sub(r"/?(lib|main|mod)$", "", self.file.removeprefix("src/").removesuffix(".rt"))

    def path(self):
        """The end of the name that the prover gives it. A method is named after the module of its type, which isn't read here."""
        return "::".join([self.owner or self.module().replace("/", "::"), self.name]).removeprefix("::")

    def proofs(self):
        """The files of its proofs, and of its closures'. A method's stand below the module of its type, wherever that is: its path
        fits one function alone, or the prover refuses it."""
        module = self.module()
        within = f"(?:[^/]+/)*{self.owner}/" if self.owner else f"{module}/" if module else ""
        return re.compile(rf"proofs/{within}(?:{self.name}/[^/]+|fn/{self.name}/.+)")


@dataclass(frozen=True)
class Edit:
    path: str
    file: str
    texts: tuple  # the pairs of an old text and the new one
    function: Function | None  # the one function that it changes, if it changes just one

    @property
    def name(self):
        return os.path.basename(self.path)

    def applied(self, text):
        for old, new in self.texts:
            text = text.replace(old, new)
        return text


def owner_of(text, at):
    """What the function that begins at this place is a method of."""
    found = [it for it in OWNER.finditer(text, 0, at)]
    if not found or "\n}" in text[found[-1].end():at]:
        return ""
    trait, argument, owner = found[-1].groups()
    return owner[0].upper() + owner[1:] + (trait or "") + (argument or "").strip("<>")


def functions_of(file, text):
    lines = text.split("\n")
    for found in FUNCTION.finditer(text):
        first = text.count("\n", 0, found.start(2)) + 1
        last = next((at for at in range(first, len(lines) + 1) if lines[at - 1] == f"{found[1]}}}"), None)
        opens = next((at for at in range(first, last or 0) if lines[at - 1].endswith(("{", ";"))), None)
        while lines[first - 2].startswith(f"{found[1]}#["):
            first -= 1
        if opens and lines[opens - 1].endswith("{"):  # what ends with ";" is a trait's function, without a body
            yield Function(file, found[2], owner_of(text, found.start()), first, last, "\n".join(lines[opens:last]))


def lines_of(path):
    with open(path, encoding="utf-8") as it:
        return it.read().rstrip("\n").split("\n")


def why_of(path):
    """What a user would see if the edit's body ran, or nothing where the edit doesn't say it."""
    first = lines_of(path)[0]
    return first.removeprefix(WHY).strip() if first.startswith(WHY) else ""


def read_edit(path, folder):
    """The edit, or None where it isn't of the form that is read here: rt says what is wrong with it."""
    lines = lines_of(path)
    if lines[0].startswith(WHY):
        del lines[0]
    if len(lines) % 2 == 0 or not lines[0].startswith("file: src/"):
        return None
    file = lines[0].removeprefix("file: ").strip()
    pairs = tuple((old.removeprefix("old: "), new.removeprefix("new: ")) for old, new in zip(lines[1::2], lines[2::2]))
    with open(f"{folder}/{file}", encoding="utf-8") as it:
        text = it.read()
    if any(text.count(old) != 1 for old, _ in pairs):
        return None
    at = [text.count("\n", 0, text.index(old)) + 1 for old, _ in pairs]
    around = [it for it in functions_of(file, text) if all(it.holds(file, line) for line in at)]
    return Edit(path, file, pairs, around[0] if len(around) == 1 else None)


def stand_apart(one, other):
    """Whether what a check says of the one function can't be meant for the other, or come of it."""
    return one.name != other.name and not one.calls(other) and not other.calls(one)


def batches_of(edits, most):
    """The edits in batches of at most so many, in each of which no two change one function, or functions of which one calls the
    other."""
    batches = []
    for edit in edits:
        fits = (it for it in batches if len(it) < most and all(stand_apart(edit.function, beside.function) for beside in it))
        batch = next(fits, None)
        if batch is None:
            batches.append(batch := [])
        batch.append(edit)
    return batches


def texts_of(batch, folder):
    """The texts of the files that the edits of the batch change. No edit changes the number of lines."""
    texts = {}
    for edit in batch:
        if edit.file not in texts:
            with open(f"{folder}/{edit.file}", encoding="utf-8") as it:
                texts[edit.file] = it.read()
        texts[edit.file] = edit.applied(texts[edit.file])
    return texts
