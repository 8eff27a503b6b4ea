"""Builds the library from the sources as a WebAssembly module, which a page can hold: scm_make, scm_line and the others of
include/scm.h, and page_alloc for what they are passed.

The toolchain compiles no crate with a heap for WebAssembly. So the module that it makes for x86-64 is read for wasm64, whose
numbers and pointers are as wide; heap.c stands for malloc; and the toolchain's own clang and linker do the rest."""
import os
import subprocess
import tempfile

from compiled import CLANG, KIT, PROVED
from library import OUTSIDE_EXPORT, plain_library

TARGET = "wasm64-unknown-unknown"
LAYOUT = "e-m:e-p:64:64-p10:8:8-p20:8:8-i64:64-i128:128-n32:64-S128-ni:1:10:20"
HEAP = f"{os.path.dirname(os.path.abspath(__file__))}/heap.c"
OPTIONS = [f"--target={TARGET}", "--no-default-config", "-mcpu=lime1", "-ffunction-sections", "-fdata-sections"]
OF_MODULE = "-O3 -Xclang -fmerge-functions -mllvm -trap-unreachable -mllvm -expand-div-rem-bits=64".split()
OF_HEAP = "-O2 -ffreestanding -nostdinc".split()


def for_target(plain, scratch):
    """The same module for WebAssembly."""
    kept = f"{scratch}/webassembly.ll"
    with open(plain, encoding="utf-8") as lines, open(kept, "w", encoding="utf-8") as out:
        for line in lines:
            export = OUTSIDE_EXPORT.match(line)
            if line.startswith("target "):
                line = f'target datalayout = "{LAYOUT}"\n' if "datalayout" in line else f'target triple = "{TARGET}"\n'
            elif line.startswith("define "):
                line = line.replace(PROVED, f'nounwind "wasm-export-name"="{export[1]}"' if export else "nounwind")
            out.write(line)
    return kept


def compile_module(top, module):
    with tempfile.TemporaryDirectory() as scratch:
        library, heap, archive = f"{scratch}/library.o", f"{scratch}/heap.o", f"{scratch}/libscm.a"
        plain = for_target(plain_library(top, scratch), scratch)
        subprocess.run([CLANG, *OPTIONS, *OF_MODULE, "-c", "-x", "ir", plain, "-o", library], check=True)
        subprocess.run([CLANG, *OPTIONS, *OF_HEAP, "-c", HEAP, "-o", heap], check=True)
        subprocess.run(["ar", "rcsD", archive, library, heap], check=True)
        words = ["--target", TARGET, "--toolchain", f"{KIT}/toolchain", "-o", module, archive]
        subprocess.run([f"{KIT}/bin/rattle-link", *words], check=True, stderr=subprocess.DEVNULL)
