"""The commands that the examples of the C library show for building and running them, each tried.

In an example's first lines they begin with `cc`, `c++`, `rustc`, `go` or `python3`; those for a checkout follow `In a checkout: `.
FONT PPEM TEXT in them are replaced; a command without these makes a program, which is run with them.
"""
import os
import re
import shlex
import shutil
import subprocess

import prebuilt
from prebuilt import TOP

LINE = re.compile(r"^(?: \* |//!? ?|//\t|    |)(In a checkout: )?((?:CGO_\S+ )*(?:cc|c\+\+|rustc|go run|python3) .*?)(?: \*/)?$",
                  re.M)
EXAMPLES = ("show.c", "console.c", "glyphs.cpp", "glyphs.py", "glyphs.rs", "glyphs.go")


def of(name, in_checkout):
    """The command of an example, in a checkout or with what is installed; or None."""
    text = prebuilt.read(os.path.join(TOP, "examples", name)).decode()
    return next((line for checkout, line in LINE.findall(text.split("#include")[0]) if bool(checkout) == in_checkout), None)


def tool_of(line):
    return next(it for it in line.split() if "=" not in it)


def made_by(line):
    """The name of the program that a command makes; or none, if it runs the example itself."""
    made = re.search(r"-o (\w+)", line) or ("rustc" in line and re.search(r"(\w+)\.rs", line))
    return made.group(1) if made else None


def alone(name, folder, env):
    """What an example that was tried in a folder says to no arguments: its status, and standard error."""
    line = of(name, True)
    words = ["./" + made_by(line)] if made_by(line) else ["bash", "-c", line.replace(" FONT PPEM TEXT", "")]
    done = subprocess.run(words, cwd=folder, env=env, stdin=subprocess.DEVNULL, capture_output=True, timeout=300)
    return done.returncode, done.stderr.decode()


def run_line(line, folder, font, env):
    """Runs a command in a folder, and the program that it makes; returns what was printed, or raises what was said."""
    font = shlex.quote(str(font))
    given = "%s 16 Aging" % font
    line = line.replace("FONT PPEM TEXT", given)
    if given not in line:
        line += " && ./%s %s" % (made_by(line), given if made_by(line) != "show" else "%s 16 67" % font)
    done = subprocess.run(["bash", "-e", "-c", line], cwd=folder, env=env, stdin=subprocess.DEVNULL, capture_output=True,
                          timeout=300)
    if done.returncode:
        raise prebuilt.Fault("%s: status %d: %s" % (line, done.returncode, done.stderr.decode("latin-1").strip()[-400:]))
    return done.stdout


def tried(folder, font, env, in_checkout, change=lambda line: line):
    """Runs the command of each example in a folder; returns what each printed by its name, and the tools that are not there.

    `change` is what becomes of a command before it runs.
    """
    printed, absent = {}, set()
    for name in EXAMPLES:
        line = of(name, in_checkout)
        if line is None:
            raise prebuilt.Fault("examples/%s has no command for %s" % (name, "a checkout" if in_checkout else "what is installed"))
        lacking = {it for it in [tool_of(line)] + ["pkg-config"] * ("pkg-config" in line) if shutil.which(it) is None}
        absent |= lacking
        if lacking:
            continue
        printed[name] = run_line(change(line), folder, font, env)
    return printed, absent
