"""Builds the library from the sources without any proof, as compiled.py builds the program.

`rt try` makes programs only. So the library becomes a program of a copy, whose main calls each export, and of its module
what is exported is given its name outside, and main none."""
import os
import re
import subprocess
import tempfile

from compiled import CLANG, KIT, OPTIONS, NotCompiled, all_hints, copy_of, module_of, stripped
from sources import LIBRARY

EXPORT = re.compile(r'^pub extern "C" fn (\w+)\((.*?)\)', re.M | re.S)
MAIN = """
fn main(rt: HostRuntime) {{
    let alloc = rt.alloc();
    let mut monitor = Monitor {{ slot: Slot::empty(alloc), live: false }};
    let (bytes, mut written, mut number, mut value) = ([0; 8], [0; 8], 0, 0);
    {calls}
}}
"""
ARGUMENTS = {
    "Global": "alloc",
    "&mut Monitor": "&mut monitor",
    "&[u8]": "&bytes",
    "&[Cell]": "&[]",
    "&mut [u8]": "&mut written",
    "&mut usize": "&mut number",
    "&mut u64": "&mut value",
}
OUTSIDE = f'"{LIBRARY}::scm_'
OUTSIDE_EXPORT = re.compile(r"define .*@(scm_\w+)\(")


def argument(parameter):
    """Something of the type of this parameter."""
    of_type = parameter.partition(":")[2].strip()
    if of_type not in (*ARGUMENTS, "usize", "u32", "u64"):
        raise NotCompiled(f"an export has a parameter of another type: {parameter}")
    return ARGUMENTS.get(of_type, "0")


def calls_of(text):
    """A call of each export."""
    for name, parameters in EXPORT.findall(text):
        arguments = [argument(it) for it in parameters.split(",") if it.strip()]
        yield f"let _ = {name}({', '.join(arguments)});"


def as_program(copy):
    """Makes the library of this copy a program."""
    lib, crates = f"{copy}/crates/{LIBRARY}/src/lib.rt", f"{copy}/crates.txt"
    with open(lib, encoding="utf-8") as source:
        text = source.read()
    with open(f"{copy}/crates/{LIBRARY}/src/main.rt", "w", encoding="utf-8") as source:
        source.write(text + MAIN.format(calls="\n    ".join(calls_of(text))))
    os.remove(lib)
    with open(crates, encoding="utf-8") as listed:
        text = listed.read()
    with open(crates, "w", encoding="utf-8") as listed:
        listed.write(text.replace(f"{LIBRARY} staticlib:", f"{LIBRARY}:"))


def exported(plain, scratch):
    """The module with its exports seen from outside, and main from nowhere."""
    kept = f"{scratch}/library.ll"
    with open(plain, encoding="utf-8") as lines, open(kept, "w", encoding="utf-8") as out:
        for line in lines:
            if OUTSIDE in line:
                line = re.sub(rf'@"{LIBRARY}::(scm_\w+)"', r"@\1", line)
                line = re.sub(r"^define internal (.*@scm_)", r"define \1", line)
            out.write(line.replace("define i32 @main(", "define internal i32 @main(", 1))
    return kept


def archive(objects, library):
    """One archive of these objects, and of what the toolchain has for them to stand on."""
    with tempfile.TemporaryDirectory() as scratch:
        subprocess.run(["ar", "x", f"{KIT}/c/liblibc_c.a"], cwd=scratch, check=True)
        further = [f"{scratch}/{name}" for name in sorted(os.listdir(scratch))]
        subprocess.run(["ar", "rcsD", library, *objects, *further], check=True)


def plain_library(top, scratch):
    """The library's module, without its checks."""
    copy = copy_of(top, scratch, tells_so=False)
    as_program(copy)
    return exported(stripped(module_of(copy, scratch, LIBRARY), all_hints(copy), scratch), scratch)


def compile_library(top, library):
    with tempfile.TemporaryDirectory() as scratch:
        made = f"{scratch}/scm.o"
        subprocess.run([CLANG, *OPTIONS, "-c", "-x", "ir", plain_library(top, scratch), "-o", made], check=True)
        archive([made], library)
