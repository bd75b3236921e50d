"""Makes the WebAssembly modules from LLVM bitcode: mkstrike.wasm with the calls of the C library, and program.wasm, the program.

The bitcode is what the kit hands to its clang when it builds the proved crates/mkstrike_c or crates/mkstrike for x86-64; here the
same clang and linker make WebAssembly of it, with 64-bit memory, and web_memory32.py makes that 32-bit memory, which every engine
has. The kit's own target for WebAssembly refuses code that reaches the heap.
"""
import os
import re
import subprocess
import tempfile
import zlib

import prebuilt
from prebuilt import TOP, Fault
from web_memory32 import with_memory32

WEB = os.path.join(TOP, "web")
LIBRARY, PROGRAM = prebuilt.MODULES
MODULES = {LIBRARY: "mkstrike_c", PROGRAM: "mkstrike"}  # of each module the crate that it is made of
SUPPORT, CALLS = "web/module.c", "c/calls.c"
SOURCES = {LIBRARY: (SUPPORT, CALLS), PROGRAM: (SUPPORT,)}  # what is compiled beside the bitcode
BUILT = {"mkstrike_c": prebuilt.ARCHIVE, "mkstrike": prebuilt.BUILT}  # what the kit makes of the crate's bitcode
MOST = {LIBRARY: (265, 104), PROGRAM: (680, 260)}  # KiB of the module, and of it compressed
TARGET = ["--target=wasm64-unknown-unknown", "-mcpu=lime1", "-mllvm", "-expand-div-rem-bits=64", "-mllvm",
          "-expand-fp-convert-bits=64"]
LINK = ["-flavor", "wasm", "-mwasm64", "--no-entry", "--stack-first", "-z", "stack-size=1048576", "--gc-sections",
        "--fatal-warnings",
        "--strip-debug", "--compress-relocations"]
# Of x86-64, in the attributes of functions: what a function does to grow the stack, and the processor.
FOREIGN = re.compile(r'"(?:probe-stack|stack-probe-size|target-cpu|target-features)"="[^"]*"')
# What web/module.c has for the bitcode.
BESIDE = ("rattle_alloc", "rattle_realloc", "rattle_dealloc", "memset", "memcpy", "memmove", "memcmp", "__multi3", "__ashlti3",
          "__lshrti3",
          "__ashrti3")
# The kit's compiler has no headers.
HEADERS = {
    "stddef.h": "typedef __SIZE_TYPE__ size_t;\n#define NULL ((void *)0)\n",
    "stdint.h": "".join("typedef __%s_TYPE__ %s_t;\n" % (it.upper(), it) for it in ("uint8", "uint16", "uint32", "uint64", "int32"))
                + "#define UINT32_C(n) n##U\n",
}
WORDS = """
import os, sys
sys.path.insert(0, sys.argv[1])
import rtlib
crate = rtlib.Crate(os.getcwd(), rtlib.root_above(os.getcwd()), {})
print("\\n".join(it for it in crate.words(["--jobs", "2"]) if not it.startswith("rt: ")))
"""
KEEPING_CLANG = """#!/bin/sh
for it; do [ "$it" != module.bc ] || cp module.bc '%s'; done
exec '%s' "$@"
"""


def kit_folder():
    """The folder of the kit on the path."""
    return os.path.dirname(os.path.dirname(os.path.realpath(prebuilt.command(["sh", "-c", "command -v rt"]))))


def run(words, folder):
    """Runs a command of the kit, or raises a fault with the end of what it said."""
    done = subprocess.run(words, cwd=folder, stdin=subprocess.DEVNULL, stdout=subprocess.PIPE, stderr=subprocess.STDOUT)
    if done.returncode:
        said = done.stdout.decode("latin-1").strip()[-600:]
        raise Fault("%s ended with status %d:\n%s" % (os.path.basename(words[0]), done.returncode, said))
    return done.stdout


def toolchain_that_keeps(room, kit):
    """A folder as the kit's toolchain, whose clang keeps the bitcode that it is handed, at `room`/module.bc."""
    made = os.path.join(room, "toolchain")
    os.makedirs(os.path.join(made, "bin"))
    os.symlink(os.path.join(kit, "toolchain/lib"), os.path.join(made, "lib"))
    for name in os.listdir(os.path.join(kit, "toolchain/bin")):
        if name != "clang":
            os.symlink(os.path.join(kit, "toolchain/bin", name), os.path.join(made, "bin", name))
    path = os.path.join(made, "bin/clang")
    with open(path, "w", encoding="utf-8") as file:
        file.write(KEEPING_CLANG % (os.path.join(room, "module.bc"), os.path.join(kit, "toolchain/bin/clang")))
    os.chmod(path, 0o755)
    return made


def bitcode(crate):
    """The bitcode of a crate. `rt lib` or `rt run` has to have proved and built it before."""
    kit, folder, due = kit_folder(), os.path.join(TOP, "crates", crate), BUILT[crate]
    with tempfile.TemporaryDirectory() as room:
        words = run(["python3", "-c", WORDS, os.path.join(kit, "bin")], folder).decode().split("\n")
        made, toolchain = os.path.join(room, os.path.basename(due)), toolchain_that_keeps(room, kit)
        built = made if due == prebuilt.ARCHIVE else made + ".o"
        run([os.path.join(kit, "bin/rattle"), "build", *[it for it in words if it and not it.startswith("rt: ")], "--toolchain",
             toolchain,
             "--backend", "llvm", "--incremental", "out/incremental", "-o", built], folder)
        if built != made:
            run([os.path.join(kit, "bin/rattle-link"), "--target", "x86_64-unknown-linux-gnu", "--toolchain", toolchain, "-o", made,
                 built,
                 *[os.path.join(kit, "c", it) for it in ("libos_c.a", "liblibc_c.a")]], folder)
        if prebuilt.read(made) != prebuilt.read(due):
            raise Fault("the bitcode is that of another %s" % os.path.basename(due))
        return prebuilt.read(os.path.join(room, "module.bc"))


def linked(room, objects, exports, imports=(), lower=with_memory32):
    """The module that the kit's linker makes of objects in a folder, with 32-bit memory."""
    with open(os.path.join(room, "imports"), "w", encoding="utf-8") as file:
        file.write("".join("%s\n" % it for it in imports))
    words = [os.path.join(kit_folder(), "toolchain/bin/ld.lld"), *LINK, *["--export=" + it for it in exports],
             "--allow-undefined-file=imports", *objects, "-o", "out.wasm"]
    run(words, room)
    return lower(prebuilt.read(os.path.join(room, "out.wasm")))


def compiled(room, path):
    """Compiles a C file to an object file in a folder; returns the object file's name."""
    for name, text in HEADERS.items():
        with open(os.path.join(room, name), "w", encoding="utf-8") as file:
            file.write(text)
    made, clang = os.path.basename(path) + ".o", os.path.join(kit_folder(), "toolchain/bin/clang")
    run([clang, *TARGET, "-O2", "-ffreestanding", "-fno-builtin", "-Wall", "-Wextra", "-Werror", "-I.",
         "-I" + os.path.join(TOP, "include"),
         "-c", os.path.join(TOP, path), "-o", made], room)
    return made


def beside_alone(lower=with_memory32):
    """A module of web/module.c alone, which exports its functions, for a test."""
    with tempfile.TemporaryDirectory() as room:
        return linked(room, [compiled(room, SUPPORT)], BESIDE, lower=lower)


def script(name):
    return prebuilt.read(os.path.join(WEB, name)).decode()


def calls_of(name):
    """What a module exports for its script, and what it imports from it: a call that the script does not make is left out."""
    if name == PROGRAM:
        table = re.search(r"^  const env = \{\n(.*?)^  \};", script("program.js"), re.M | re.S).group(1)
        return ["main"], re.findall(r"^    (\w+): ", table, re.M)
    return sorted(set(re.findall(r"\.calls\.(mkstrike_\w+)", script("mkstrike.js")))), []


def module_of(name, code):
    """The module of this name, of its crate's bitcode."""
    clang = os.path.join(kit_folder(), "toolchain/bin/clang")
    with tempfile.TemporaryDirectory() as room:
        with open(os.path.join(room, "module.bc"), "wb") as file:
            file.write(code)
        run([clang, TARGET[0], "-Wno-override-module", "-x", "ir", "module.bc", "-O0", "-S", "-emit-llvm", "-o", "module.ll"], room)
        text = FOREIGN.sub("", prebuilt.read(os.path.join(room, "module.ll")).decode("latin-1"))
        with open(os.path.join(room, "module.ll"), "w", encoding="latin-1") as file:
            file.write(text)
        run([clang, *TARGET, "-Os", "-x", "ir", "module.ll", "-c", "-o", "module.o"], room)
        module = linked(room, ["module.o", *(compiled(room, it) for it in SOURCES[name])], *calls_of(name))
    sizes = len(module), len(zlib.compress(module, 9))
    if any(size > most << 10 for size, most in zip(sizes, MOST[name])):
        raise Fault("%s has %d bytes, %d compressed: at most %d and %d KiB were meant" % (name, *sizes, *MOST[name]))
    return module


def modules(folder=None):
    """The modules by their names, of what the kit built, or of the bitcode in a folder."""
    return {name: module_of(name, prebuilt.read(os.path.join(folder, crate + ".bc")) if folder else bitcode(crate))
            for name, crate in MODULES.items()}


def hash_of_sources():
    """The hash of what the modules are made of: the sources of their crates and below, what makes them, and the calls between them
    and scripts."""
    own = [prebuilt.read(os.path.join(TOP, it))
           for it in (SUPPORT, CALLS, "include/mkstrike.h", "tools/web_module.py", "tools/web_memory32.py")]
    calls = [it for name in MODULES for words in calls_of(name) for it in words]
    return prebuilt.sha256(
        "\n".join([*map(prebuilt.hash_of_sources, MODULES.values()), *map(prebuilt.sha256, own), *calls]).encode())
