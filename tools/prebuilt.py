"""The program, the C library and the page kept in dist/, and their manifest: lines of text that say of what they were made.

    sources SHA256             the hash of the program's sources, 64 hexadecimal digits (hash_of_sources)
    kit LINE                   what `rt version` prints
    mkstrike SHA256            the hash of the file dist/mkstrike
    library-sources SHA256     the hash of the sources of crates/mkstrike_c and of what it stands on
    libmkstrike_c.a SHA256     the hash of the file dist/libmkstrike_c.a
    libmkstrike_c-aarch64.a SHA256     that of the same library for 64-bit ARM, if dist/ has it
    module-sources SHA256      the hash of what the WebAssembly modules are made of, as tools/web_module.py makes them
    mkstrike.wasm SHA256       the hash of the file dist/mkstrike.wasm, the library's calls
    program.wasm SHA256        the hash of the file dist/program.wasm, the program

The last lines are there if the modules are. dist/mkstrike.html needs none: tools/check_dist makes it anew from web/ and the module.
"""
import collections
import hashlib
import os
import re
import stat
import subprocess
import sys

TOP = os.path.dirname(os.path.dirname(os.path.realpath(__file__)))
DIST = os.path.join(TOP, "dist")
BUILT = os.path.join(TOP, "crates/mkstrike/out/mkstrike")
ARCHIVE = os.path.join(TOP, "crates/mkstrike_c/out/libmkstrike_c.a")
ARM_ARCHIVE = "libmkstrike_c-aarch64.a"
MOST = 1000000  # bytes of a file of dist/
PARTS = ("src", "specs", "proofs")  # the folders of a crate that have its sources

FILES = ("manifest", "mkstrike", "libmkstrike_c.a")
MODULES = ("mkstrike.wasm", "program.wasm")
WEB_FILES = ("mkstrike.html",) + MODULES


class Fault(Exception):
    """What stops a tool, as one line."""


def ended_by_faults(name, main):
    """Runs `main` and ends the process with its status, or with 1 after a fault's line."""
    try:
        sys.exit(main())
    except Fault as fault:
        sys.exit("%s: %s" % (name, fault))
    except KeyboardInterrupt:
        sys.exit(130)


def command(words):
    """What the command prints, as text without the last line's end."""
    try:
        ran = subprocess.run(words, stdin=subprocess.DEVNULL, capture_output=True, text=True)
    except OSError as fault:
        raise Fault("%s: %s" % (words[0], fault.strerror))
    if ran.returncode:
        raise Fault("%s failed: %s" % (words[0], ran.stderr.strip()[-300:]))
    return ran.stdout.rstrip("\n")


def hash_of_sources(crate="mkstrike"):
    """The hash of the sources of a crate and of what it stands on, as they are, 64 hexadecimal digits.

    It is that of lines as sha256sum writes them, one a file, in the order of the files' paths below the top.
    """
    lines = {"crates.txt": sha256(read(os.path.join(TOP, "crates.txt")))}
    for name in crates_below(crate):
        for part in PARTS:
            for folder, _, files in os.walk(os.path.join(TOP, "crates", name, part), followlinks=True):
                lines.update((os.path.relpath(os.path.join(folder, it), TOP), sha256(read(os.path.join(folder, it))))
                             for it in files)
    paths = sorted(lines, key=os.fsencode)
    return sha256(b"".join(b"%s  %s\n" % (lines[it].encode(), os.fsencode(it)) for it in paths))


def sets(table):
    """A table of crates/fx_words/src/sets.rt: sets of characters by name (SETS), or other names of sets (OTHERS)."""
    text = read(os.path.join(TOP, "crates/fx_words/src/sets.rt")).decode().partition("const %s:" % table)[2].partition("];")[0]
    return re.findall(r'\(\s*"([^"]+)",\s*"([^"]+)",?\s*\)', re.sub(r"\\\n\s*", "", text))


def calls_of_header():
    """From each call that include/mkstrike.h declares to what it takes."""
    return dict(re.findall(r"^\w+ (mkstrike_\w+)\(([^)]*)\);", read(os.path.join(TOP, "include/mkstrike.h")).decode(), re.M))


def structs_of_header(text):
    """The structs of a header: each name with its fields, as pairs of type and name."""
    for name, body in re.findall(r"^struct (mkstrike_\w+) \{$(.*?)^\};", re.sub(r"/\*.*?\*/", "", text, flags=re.S), re.S | re.M):
        rows = re.findall(r"([\w ]+) (\w+(?:, \w+)*);", body)
        yield name, [(kind.strip(), field) for kind, fields in rows for field in fields.split(", ")]


def refusals():
    """The refusals of docs/REFUSALS.md: the number of each, its name, its field, and what to do."""
    rows, to_do = [], ""
    page = read(os.path.join(TOP, "docs/REFUSALS.md")).decode()
    for number, name, field, said in re.findall(r"^\| (\d+) \| (\w+) ?(\w*) \|[^|]*\| ([^|]*) \|$", page, re.M):
        to_do = to_do if said == "the same" else said.replace("`", "")
        rows.append((int(number), name, field, to_do))
    return rows


def kinds_of_files(top=TOP):
    """Its files of another kind: the first bytes of each, or None for hexadecimal text; how they look, what the file does, and what
    to do."""
    page = read(os.path.join(top, "docs/REFUSALS.md")).decode()
    for begins, shown, does, to_do in re.findall(
        r"^\| (none|`[0-9a-f ]+`|only hexadecimal digits) \|([^|]*)\| ([^|]+) \| ([^|]+) \|$", page, re.M):
        first = None if begins.startswith("only") else bytes.fromhex(begins.strip("`").replace("none", ""))
        yield first, shown.strip(" `"), does, to_do.replace("`", "")


def libraries_of_crates(text):
    """From each crate to the libraries that it uses, by the text of crates.txt, in its order."""
    rows = [line.partition("#")[0].partition(":") for line in text.split("\n")]
    return {name.split()[0]: words.split() for name, _, words in rows if name.strip()}


def crates_below(crate):
    """A crate and those of the repository that it stands on."""
    uses, found = libraries_of_crates(read(os.path.join(TOP, "crates.txt")).decode()), [crate]
    for name in found:
        found += [it for it in uses[name] if it in uses and it not in found]
    return found


def kit():
    """The line by which the kit on the path names itself."""
    return command(["rt", "version"])


def sha256(data):
    """The hash of bytes, 64 hexadecimal digits."""
    return hashlib.sha256(data).hexdigest()


def shown(path):
    """The path as a reader at the top of the repository would write it."""
    return os.path.relpath(path, TOP) if os.path.abspath(path).startswith(TOP + "/") else path


def read(path):
    """The file's bytes."""
    try:
        with open(path, "rb") as file:
            return file.read()
    except OSError as fault:
        raise Fault("%s: %s" % (shown(path), fault.strerror))


def write(path, data, mode=0o644):
    """Puts a file in place whole, in one step."""
    new = os.path.join(TOP, "out", "%s.%d" % (os.path.basename(path), os.getpid()))
    os.makedirs(os.path.dirname(new), exist_ok=True)
    with open(new, "wb") as file:
        file.write(data)
    os.chmod(new, mode)
    os.replace(new, path)


Manifest = collections.namedtuple("Manifest",
                                  "sources kit program library_sources library arm module_sources module program_module",
                                  defaults=(None,) * 4)
# of its fields; the last may lack
ROWS = ("sources", "kit", "mkstrike", "library-sources", "libmkstrike_c.a", ARM_ARCHIVE, "module-sources", *MODULES)
FORM = re.compile("".join("(?:%s (%s)\n)%s" % (re.escape(name), "[^\n]+" if name == "kit" else "[0-9a-f]{64}", "?" * (at > 4))
                          for at, name in enumerate(ROWS)))


def manifest_of(manifest):
    """The bytes of dist/manifest."""
    return "".join("%s %s\n" % row for row in zip(ROWS, manifest) if row[1]).encode()


def read_manifest():
    """What dist/manifest says."""
    found = FORM.fullmatch(read(os.path.join(DIST, "manifest")).decode("latin-1"))
    if not found or bool(found.group(7)) != bool(found.group(8)):
        raise Fault("dist/manifest does not have the lines %s" % " ".join(ROWS[:5]))
    return Manifest(*found.groups())


def look_at_dist():
    """Raises a fault unless dist/ has just its files, as they have to be, and the manifest is of the others."""
    manifest = read_manifest()
    named = ((ARM_ARCHIVE, manifest.arm), *zip(WEB_FILES, (manifest.module, manifest.module, manifest.program_module)))
    files = FILES + tuple(name for name, it in named if it)
    for name in sorted(os.listdir(DIST)):
        if name not in FILES + (ARM_ARCHIVE,) + WEB_FILES:
            raise Fault("dist/%s has no place there" % name)
    for name in files:
        try:
            seen = os.lstat(os.path.join(DIST, name))
        except OSError as fault:
            raise Fault("dist/%s: %s" % (name, fault.strerror))
        if not stat.S_ISREG(seen.st_mode):
            raise Fault("dist/%s is not a plain file" % name)
        if seen.st_size >= MOST:
            raise Fault("dist/%s has %d bytes: it has to be under %d" % (name, seen.st_size, MOST))
        if (name == "mkstrike") != bool(seen.st_mode & 0o111):
            raise Fault("dist/%s is %sexecutable" % (name, "not " if name == "mkstrike" else ""))
    for name, named in (("mkstrike", manifest.program), ("libmkstrike_c.a", manifest.library), (ARM_ARCHIVE, manifest.arm),
                        *zip(MODULES, (manifest.module, manifest.program_module))):
        if named and named != sha256(read(os.path.join(DIST, name))):
            raise Fault("dist/%s is not the file that dist/manifest names by its hash" % name)


def file_of_dist(name, crate, sources_in_manifest):
    """The bytes of a file of dist/, if it is of the crate's sources as they are."""
    if not os.path.lexists(DIST):
        raise Fault("there is no dist/: make it by tools/make_dist, or name the file")
    look_at_dist()
    if sources_in_manifest(read_manifest()) != hash_of_sources(crate):
        raise Fault("dist/%s is of other sources: make it anew by tools/make_dist, or name the file" % name)
    return read(os.path.join(DIST, name))


def program_of_dist():
    """The bytes of dist/mkstrike, if it is of these sources."""
    return file_of_dist("mkstrike", "mkstrike", lambda it: it.sources)


def library_of_dist():
    """The bytes of dist/libmkstrike_c.a, if it is of these sources."""
    return file_of_dist("libmkstrike_c.a", "mkstrike_c", lambda it: it.library_sources)


def run_stored_request(words, how=None):
    """What is wrong with the answer to the request that is kept beside the program's sources, or None.

    `words` start the program; `how` has more arguments for subprocess.run.
    """
    folder = os.path.dirname(os.path.dirname(BUILT))
    request, answer = (read(os.path.join(folder, name)) for name in ("stdin", "stdout"))
    try:
        ran = subprocess.run(words, input=request, capture_output=True, timeout=60, **(how or {}))
    except (OSError, subprocess.TimeoutExpired) as fault:
        return str(fault)
    if ran.returncode:
        said = ran.stderr.decode("latin-1").strip().split("\n")[-1]
        return "status %d on the stored request: %s" % (ran.returncode, said)
    return None if ran.stdout == answer else "its answer to the stored request is another"
