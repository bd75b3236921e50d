"""The most stack that calls of a library take, by adding up frames over its machine code (objdump, x86-64).

A function's frame is its return address, what it pushes and what it takes off the stack pointer; a call takes its function's frame
and the most that a function it calls takes. That is a bound only if no function calls itself, however indirectly, none is called
through a pointer, and each frame has a fixed size; else there is a Fault. What other libraries take (memcpy, malloc) is not in it.
"""
import re
import subprocess


class Fault(Exception):
    """Why there is no bound."""


class Function:
    """A function's frame in bytes, and the names of what it calls or jumps to."""

    def __init__(self):
        self.frame, self.calls = 8, set()


def plain(symbol):
    """A function's name by the symbol of a relocation."""
    return re.sub(r"^\.text\.(unlikely\.)?", "", re.sub(r"[-+]0x[0-9a-f]+$", "", symbol))


def add(function, name, line):
    """Adds an instruction, with its relocation, to a function."""
    moved = re.match(r"(sub|add)\s+\$0x([0-9a-f]+),%rsp", line)
    if line.startswith("push"):
        function.frame += 8
    elif moved:
        number = int(moved.group(2), 16)
        number -= (number >> 63) << 64  # 128 bytes are taken by adding -128, which is shorter
        function.frame += max(0, number if moved.group(1) == "sub" else -number)
    elif re.match(r"(sub|add|and|lea|mov)\s.*,%rsp$", line):
        raise Fault("%s has a frame of no fixed size: %s" % (name, line))
    if re.match(r"call\s+\*", line):
        raise Fault("%s calls through a pointer: %s" % (name, line))
    to = (re.match(r"(?:call|jmp)\b.*R_X86_64_(?:PLT32|PC32)\s+(\S+)", line)
          or re.match(r"(?:call|jmp)\s+[0-9a-f]+ <([^>+]+)>", line))
    if to and plain(to.group(1)) != name:
        function.calls.add(plain(to.group(1)))
    elif to and line.startswith("call"):
        raise Fault("%s calls itself" % name)


def functions_of(archive):
    """The functions of an archive, by their names."""
    words = ["objdump", "-dr", "--no-show-raw-insn", "-w", archive]
    text = subprocess.run(words, capture_output=True, text=True, check=True).stdout
    found, name = {}, None
    for line in text.splitlines():
        head = re.match(r"[0-9a-f]+ <(.*)>:$", line)
        if head:
            name = head.group(1)
            found[name] = Function()
            continue
        code = re.match(r"\s+[0-9a-f]+:\s+(.*)$", line)
        if code and name:
            add(found[name], name, code.group(1))
    return found


def bounds(archive, calls):
    """The most bytes of stack that each of these calls takes, by its name."""
    functions, known, under_way = functions_of(archive), {}, []

    def most(name):
        if name not in functions:
            return 0
        if name in under_way:
            raise Fault("%s calls itself" % " -> ".join(under_way[under_way.index(name):] + [name]))
        if name not in known:
            under_way.append(name)
            known[name] = functions[name].frame + max(map(most, functions[name].calls), default=0)
            under_way.pop()
        return known[name]

    missing = [it for it in calls if it not in functions]
    if missing:
        raise Fault("there is no %s" % " ".join(missing))
    return {it: most(it) for it in calls}
