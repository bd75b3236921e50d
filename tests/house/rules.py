"""The rules of the house, which the sources and the documents keep.

A rule is a function below from the house to its findings; its first line says what it asks for, the others why. To add one, write
it, name it in RULES, and give it a planted fault in test_rules.py.
"""
import collections
import functools
import glob
import os
import re

from prebuilt import libraries_of_crates, structs_of_header

# What is left of older times: how many findings of a rule there may be. A number here only ever goes down.
LEFT = {"lemmas_named_once": 1, "twice": 2}

# The crates below `fx_raster` and the types by which they find pixels: `fx_strike` and `fx_views` name none of them.
RASTER = re.compile(r"\b(fx_winding|fx_rows|fx_dropout|fx_contour|Pieces|Noted|Tally)\b")

LONGEST = 132  # characters of a line
MOST = 40  # words of a sentence
PAGE = 110  # lines of README
TWICE = 8  # lines that are a run worth telling
EDITS = ("crates/*/must-fail/*.edit", "crates/*/planted/*.edit")

# Words that the house does not use, and what it says instead.
WORDS = {
    "want of memory": "out of memory",
    "so many": "n",
    "lawful": "valid",
    "made whole": "assembled",
    "has to be there": "is required",
    "just where": "exactly when",
    "words of the command line": "arguments",
    "stands behind": "comes after",
}

DOCUMENTS = ["README.md", "CONTRIBUTING.md", "SECURITY.md", "docs/*.md", "suite/*.md", "tools/README.md", "bench/README.md"]
# What stands for a noun or a clause that a plain sentence says.
IDIOM = re.compile(r"\b(?:that|those)\s+of\b|\bones?\s+(?:that|which)\b|\bby\s+which\b", re.IGNORECASE)

# The columns of the table of the doors in docs/WORDS.md after the first, and the files that have the words of each.
DOORS = (("crates/fx_front/src/*.rt", "crates/fx_bdf/src/*.rt"), ("python/mkstrike/*.py",), ("include/mkstrike.h",),
         ("python/mkstrike/*.py",),
         ("web/index.html", "web/*.js"))

FUNCTION = re.compile(r"\s*(?:pub(?:\(\w+\))? )?(?:const )?(?:unsafe )?fn (\w+)")
LOOP = re.compile(r"\s*(?:('\w+): )?(?:for\b.+\bin\b|while\b|loop\b)")
COMMENT = re.compile(r"(?://|--)(.*)")

# The table of the refusals, in the code: a row, and one of a cause of halts. What docs/REFUSALS.md writes for a location.
REFUSAL = re.compile(r'Refusal::\w+(?:\(\w+\))? => \((\d+), "(\w+)", Location::(\w+)')
CAUSE = re.compile(r'Cause::\w+ => \((\d+), "(\w+)"\)')
LOCATIONS = {"Nowhere": "", "Table": " tag", "Glyph": " g", "Property": " p", "Bytes": " n", "Halt": ""}
OF_THE_PROGRAM = range(70, 80)  # reading and writing, which no call from C does
OF_C = ((64, "BadMode"), (65, "BadBlock"))  # which only calls from C give

# The constants of include/mkstrike.h that are no refusals: where the crate of the C library has each, and what holds its value
# there.
CONSTANTS = {
    "DONE": ("glyph.rt", r"if made\.is_some\(\) \{ (\w+) \} else \{ MISSING \}"),
    "MISSING": ("glyph.rt", r"const MISSING: u32 = (\w+);"),
    "HINTED": ("mode.rt", r"hinting: mode(?: / (\w+))? % 2 == 1"),
    "DROPOUT": ("mode.rt", r"mode / (\w+) % 2 == 1 \{\s+return Dropout::Left;"),
    "DROPOUT_NEAR": ("mode.rt", r"mode / (\w+) % 2 == 1 \{\s+return Dropout::Near;"),
    "DROPOUT_FONT": ("mode.rt", r"mode / (\w+) % 2 == 1 \{\s+return Dropout::Font;"),
    "CAREFUL": ("mode.rt", r"careful: mode / (\w+) % 2 == 1"),
    "PACKED": ("mode.rt", r"fn is_packed[^{]*\{[^}]*\}\s*\{\s+mode / (\w+) % 2 == 1"),
    "X11": ("mode.rt", r"fn is_x11[^{]*\{[^}]*\}\s*\{\s+mode / (\w+) % 2 == 1"),
    "NONE": ("refused.rt", r"const NONE: u32 = (\w+);"),
    "FPGM": ("refused.rt", r"const FPGM: u32 = (\w+);"),
    "PREP": ("refused.rt", r"const PREP: u32 = (\w+);"),
    "VERSION": ("version.rt", r"const VERSION: u32 = (\w+);"),
}
# The types of a struct's fields in C, by those in the code.
TYPES = {"u32": "uint32_t", "u64": "uint64_t", "i32": "int32_t", "usize": "size_t", "GlyphInfo": "struct mkstrike_glyph_info"}

# A path in a document; one that has a word in capitals for any name; one of what is made, or of the system; one in an example.
PATH = re.compile(r"\.{0,2}/?[a-z.][\w.-]*(/[\w.*-]+)+$")
ANY_PATH = re.compile(r"\b[A-Z]{2,}\b(?!\.md)")
MADE_PATH = re.compile(r"(^|/)(out|usr|dev|etc|proc)(/|$)")
# A lemma's first line, which is no answer to a goal; a word of a proof.
LEMMA = r"(?:abbrev |unfoldable )?(pub )?([^\s(){}:◌]+) : (?!goal\.)"
# What a file of lemmas has, at any depth: what it declares, and the first that it hands on.
OWN = r"^ *(?:pub use .*\{|(?:pub )?(?:abbrev |unfoldable |data |record )?(?:pub )?)([\w'-]+)"
WORD = re.compile(r"[^\s(){}\[\],;:.|←]+")
SHOWN = re.compile(r"(crates|tests|tools|packaging|bin|bench|docs)/[\w./-]+$")


class House:
    """The files of a repository, each read once: its sources, lemmas, edits and documents."""

    def __init__(self, top):
        self.top = top

    @functools.lru_cache(maxsize=None)
    def paths(self, pattern):
        found = glob.glob(os.path.join(self.top, pattern), recursive=True)
        return sorted(it for it in (os.path.relpath(it, self.top) for it in found) if "/out/" not in it)

    @functools.lru_cache(maxsize=None)
    def text(self, path):
        with open(os.path.join(self.top, path), encoding="utf-8") as file:
            return file.read()

    def lines(self, path):
        return enumerate(self.text(path).split("\n"), 1)

    def exists(self, path):
        return os.path.lexists(os.path.join(self.top, path))

    def sources(self):
        """The sources that are not tests."""
        return [it for it in self.paths("crates/*/src/**/*.rt") if os.path.basename(it) != "tests.rt"
                and not re.match(r"crates/(acceptance|\w+_tests)/", it)]

    def lemmas(self):
        return self.paths("crates/*/proofs/**/*.antt")

    def definitions(self):
        return self.paths("crates/*/specs/**/*.antt")

    def documents(self):
        return [path for pattern in DOCUMENTS for path in self.paths(pattern)]

    def crates(self):
        """From each crate to those of the repository that it stands on, in the order of crates.txt."""
        uses = libraries_of_crates(self.text("crates.txt"))
        return {name: [it for it in libraries if it in uses] for name, libraries in uses.items()}


def without_tests(text):
    return text.split("#[cfg(test)]\nmod ")[0]


def loops(house):
    """Each loop that is no test's: path, number of its line, its label or None, the line above."""
    for path in house.sources():
        above = ""
        for number, line in enumerate(without_tests(house.text(path)).split("\n"), 1):
            found = LOOP.match(line)
            if found:
                yield path, number, found.group(1), above
            above = line


def loops_labelled(house):
    """Each loop has a label that says what it goes over.

    Proofs name a loop by its label, and a reader of them knows which loop is meant."""
    for path, number, label, _ in loops(house):
        if not label:
            yield path, number, "a loop without a label"


def loops_explained(house):
    """Above each loop of a library stands a line that says its invariant in words.

    The invariant is the idea of the loop; whoever changes the loop should not have to read the proof first."""
    for path, number, _, above in loops(house):
        if path.startswith("crates/fx_") and not re.match(r"\s*// ", above):
            yield path, number, "a loop without a line that says its invariant"


def functions(house):
    """Each function that is no test's: path, number of its line, its name, the lines above it, whether a trait has its doc."""
    for path in house.sources():
        lines, of_trait = without_tests(house.text(path)).split("\n"), False
        for at, line in enumerate(lines):
            if re.match(r"\S", line):
                of_trait = bool(re.match(r"impl\b.* for ", line))
            found = FUNCTION.match(line)
            if found:
                yield path, at + 1, found.group(1), lines[:at], of_trait


def functions_documented(house):
    """Each function has a doc, public or not; a method of a trait has it in the trait.

    A contract says what is proved; the doc says it in words, which is what most readers read."""
    for path, number, name, above, of_trait in functions(house):
        while above and re.match(r"\s*#\[|\s*[\w:(), ]+,$|.*\]$", above[-1]) and not above[-1].lstrip().startswith("///"):
            above = above[:-1]  # attributes, which may take several lines
        if not (of_trait or name == "main" or above and above[-1].lstrip().startswith("///")):
            yield path, number, "%s has no doc" % name


def lines_short(house):
    """No line of code, definition or proof is longer than 132 characters, imports and attributes apart.

    Two files side by side stay readable; imports are one line each because the formatter writes them so."""
    for path in house.paths("crates/*/src/**/*.rt") + house.definitions() + house.lemmas():
        for number, line in house.lines(path):
            if len(line) > LONGEST and not re.match(r"\s*(pub )?(ghost )?use |\s*#!?\[", line):
                yield path, number, "%d characters" % len(line)


def programs(house, folders="tests suite tools packaging bench python examples"):
    """The programs and modules in Python."""
    for path in [path for folder in folders.split() for path in house.paths(folder + "/**/*")]:
        is_script = "." not in os.path.basename(path) and os.path.isfile(os.path.join(house.top, path))
        if path.endswith(".py") or is_script and house.text(path).startswith("#!/usr/bin/env python3"):
            yield path


def lines_of_python(house):
    """No line of Python is longer than 132 characters, as setup.cfg says to flake8 and autopep8.

    Two files side by side stay readable."""
    length = re.findall(r"^max[-_]line[-_]length = (.*)", house.text("setup.cfg"), re.MULTILINE)
    if set(length) != {str(LONGEST)}:
        yield "setup.cfg", 1, "the longest line is %s, not %d" % (length, LONGEST)
    for path in programs(house):
        for number, line in house.lines(path):
            if len(line) > LONGEST:
                yield path, number, "%d characters" % len(line)


def suite_alone(house):
    """Nothing in suite/ is found by way of tests/ or tools/.

    `git archive HEAD suite` is the suite, which other rasterizers take without this repository."""
    for path in programs(house, "suite"):
        for number, line in house.lines(path):
            if re.search(r"""\.\./t(ests|ools)\b|["']t(ests|ools)["']|\bt(ests|ools)/\w+""", line):
                yield path, number, line.strip()


def slashes(house):
    """No comment begins with four slashes.

    It looks like a doc and is none, so the item has no doc."""
    for path in house.paths("crates/*/src/**/*.rt"):
        for number, line in house.lines(path):
            if re.match(r"\s*////", line):
                yield path, number, "four slashes"


def prover_statements(house):
    """A statement that binds a name nobody reads (`let _x`) has a comment above it that says why.

    Most are there for the prover alone; a reader takes them for leftovers and deletes them."""
    for path in house.sources():
        above = ""
        for number, line in house.lines(path):
            if re.match(r"\s*let _\w+\b", line) and not re.match(r"\s*// ", above):
                yield path, number, line.strip()
            above = line


def words(house):
    """The words of WORDS appear nowhere.

    Plain English, and one name for one thing; these were found to puzzle readers. Comments and documents are looked at."""
    sources = house.paths("crates/*/src/**/*.rt") + house.definitions() + house.lemmas()
    for path in sources + house.documents():
        used = [word for word in WORDS if word in house.text(path).lower()]
        for number, line in house.lines(path) if used else ():
            said = COMMENT.search(line) if path in sources else re.match("(.*)", line)
            for word in used:
                if re.search(r"\b%s\b" % word, said.group(1) if said else "", re.IGNORECASE):
                    yield path, number, "%s (say: %s)" % (word, WORDS[word])


def definitions_listed(house):
    """Each public file of definitions is named in docs/DEFINITIONS.md; the others are in `specs/inner`.

    That page is the reading order of what the theorem speaks of; a file beside it would be believed unread."""
    named = set()
    for line in house.text("docs/DEFINITIONS.md").split("\n"):
        crate = None
        for name in re.findall(r"`([^`]+)`", line):
            parts = name.split("/specs")
            crate = parts[0] if len(parts) == 2 else crate
            named.add("%s/%s" % (crate, parts[-1].lstrip("/")))
    for path in house.paths("crates/*/specs/*.antt"):
        crate, name = path.split("/")[1], os.path.basename(path)[:-5]
        if name not in ("Lib", "inner") and not {"%s/%s" % (crate, name), crate + "/"} & named:
            yield path, 1, "docs/DEFINITIONS.md does not name it"


def words_of_documents(house):
    """What the documents write in backticks, and in the examples of CONTRIBUTING and of tools/README: path, line, text."""
    for path in house.documents():
        for number, line in house.lines(path):
            example = line.startswith("    ") and path in ("CONTRIBUTING.md", "tools/README.md")
            yield from ((path, number, it) for it in re.findall(r"`([^`]+)`", line))
            yield from ((path, number, it) for it in re.findall(r"\]\(([^):#]+)\)", line))
            yield from ((path, number, it) for it in (line.split() if example else []) if SHOWN.match(it))


def paths(house):
    """Each path that the documents name is there.

    The first example that a newcomer opens has to open. A path may be of the top, of a crate, or of one crate's folders; one in
    capitals stands for any, and what is below `out` is made."""
    for path, number, text in words_of_documents(house):
        for word in text.split():
            word = word.rstrip("/")
            if not PATH.match(word) or ANY_PATH.search(word) or MADE_PATH.search(word):
                continue
            there = ["", os.path.dirname(path) + "/", "crates/", "crates/*/"]
            if not any(house.paths(top + word + ending) for top in there for ending in ("", ".antt", ".rt")):
                yield path, number, word


def anchors(house):
    """Each link to a heading leads to one.

    A link that opens the top of a long page is worse than none."""
    for path in house.documents():
        for number, line in house.lines(path):
            for page, anchor in re.findall(r"\]\(([^):#]*)#([^)]+)\)", line):
                other = os.path.normpath(os.path.join(os.path.dirname(path), page)) if page else path
                heads = re.findall(r"^#+ (.+)$", house.text(other), re.MULTILINE) if house.exists(other) else []
                if anchor not in (re.sub(r"[^\w -]", "", it.lower()).replace(" ", "-") for it in heads):
                    yield path, number, "%s#%s" % (page, anchor)


def names(house):
    """Each name of ours that the documents write in backticks is in the sources.

    A page that speaks of what was renamed misleads. Names of ours are those with `_`, with `::`, or of two words in capitals."""
    known = set()
    for it in house.paths("crates/*/src/**/*.rt") + house.definitions() + house.lemmas():
        known.update(re.findall(r"[A-Za-z_]\w*", house.text(it)))
    for pattern in ("tools/*", "tests/[a-z]*/*", "packaging/*", "bin/show-bdf", "bench/*", ".ci/*", "python/*/*.py", "crates.txt",
                    *EDITS):
        for it in house.paths(pattern):
            known.add(os.path.splitext(os.path.basename(it))[0])
            known.update(re.findall(r"[A-Za-z_]\w*", house.text(it)) if os.path.isfile(os.path.join(house.top, it)) and
                         not it.endswith(".edit") else [])
    for path, number, text in words_of_documents(house):
        for word in re.findall(r"(?<![\w/.<-])[A-Za-z_]\w*(?:::[A-Za-z_]\w*)*(?![\w/.])", text):
            ours = "_" in word.strip("_") or "::" in word or re.match(r"[A-Z][a-z]+[A-Z]\w*$", word)
            if ours and not set(word.split("::")) <= known:
                yield path, number, word


def stands_on(house):
    """The column "Stands on" of docs/ARCHITECTURE.md is what crates.txt says.

    It is the map by which a change is planned; written by hand it was neither the list nor its reduction."""
    page = house.text("docs/ARCHITECTURE.md").replace("| |", "|  |")
    written = dict(re.findall(r"^\| `(\w+)` \| ([^|]*) \|", page, re.MULTILINE))
    for name, below in house.crates().items():
        if ", ".join(below) != written.get(name, "nothing").strip():
            yield "docs/ARCHITECTURE.md", 1, "`%s` | %s" % (name, ", ".join(below))


def files_are_files(house):
    """No file or folder of the repository is a link.

    `rt ci` proves a clean copy, and refuses a tree with a link in it before it proves anything. The copies that test_checks.py
    makes have links to absolute paths, which are not counted."""
    for path in house.paths("*") + house.paths("*/**"):
        whole = os.path.join(house.top, path)
        if os.path.islink(whole) and not os.path.isabs(os.readlink(whole)):
            yield path, 1, "a link to " + os.readlink(whole)


def raster_by_its_door(house):
    """The code and the definitions of `fx_strike` and `fx_views` name of the raster only what `fx_raster` exports.

    When strikes handled pieces and frames themselves, an option about pixels was in 183 files."""
    kinds = ("fx_strike/src/**/*.rt", "fx_strike/specs/**/*.antt", "fx_views/src/**/*.rt", "fx_views/specs/**/*.antt")
    for path in [it for kind in kinds for it in house.paths("crates/" + kind)]:
        for number, line in house.lines(path):
            for name in RASTER.findall(line):
                yield path, number, name


def counts(house):
    """A count of functions that CONTRIBUTING states is the count of the crate's sources.

    A number that is not true makes the others doubtful."""
    for number, line in house.lines("CONTRIBUTING.md"):
        for crate, count in re.findall(r"`(fx_\w+)` \((\d+) functions\)", line):
            true = sum(1 for path, *_ in functions(house) if path.startswith("crates/%s/" % crate))
            if true != int(count):
                yield "CONTRIBUTING.md", number, "%s has %d functions" % (crate, true)


def refusals(house):
    """The refusals of docs/REFUSALS.md and of include/mkstrike.h are those of the table in the code.

    `Refusal::entry` and `Cause::entry` are the table, by number, name and location; the definitions have it again, and the proof
    compares them. Users look refusals up in the document and name them by the header, which nothing else compares before the gate
    has run for an hour."""
    table = {(int(number), name): location
             for number, name, location in REFUSAL.findall(house.text("crates/fx_request/src/refusal.rt"))}
    table.update(((int(number), name), "Halt") for number, name in CAUSE.findall(house.text("crates/fx_machine/src/halt.rt")))
    table.update((it, "Nowhere") for it in OF_C)
    told = {
        "docs/REFUSALS.md": re.findall(r"^\| (\d+) \| (\w+[ \w]*) \|", house.text("docs/REFUSALS.md"), re.MULTILINE),
        "include/mkstrike.h": [it[::-1] for it in re.findall(r"\bMKSTRIKE_([A-Z_]+) = (\d\d)\b", house.text("include/mkstrike.h"))],
    }
    due = {
        "docs/REFUSALS.md": [("%d" % number, name + LOCATIONS[location]) for (number, name), location in table.items()],
        "include/mkstrike.h": [("%d" % number, re.sub(r"(?<=[a-z])([A-Z])", r"_\1", name).upper()) for number, name in table
                               if number not in OF_THE_PROGRAM],
    }
    for path, rows in due.items():
        yield from ((path, 1, "%s %s is not in the table" % it) for it in told[path] if it not in rows)
        yield from ((path, 1, "%s %s of the table is not there" % it) for it in rows if it not in told[path])


def number_of(text):
    """The value of a number as C or the code writes it; nothing stands for 1."""
    return int((text or "1").replace("_", ""), 0)


def structs_of_code(text):
    """The structs of a source that C sees, in the same form."""
    for name, body in re.findall(r"#\[repr\(C\)\].*?pub struct (\w+) \{$(.*?)^\}", text, re.DOTALL | re.MULTILINE):
        fields = re.findall(r"^    pub (\w+): (\w+),$", body, re.MULTILINE)
        yield "mkstrike" + re.sub("([A-Z])", r"_\1", name).lower(), [(TYPES.get(kind, kind), field) for field, kind in fields]


def header(house):
    """Each constant of include/mkstrike.h and each struct is the one that the code has, and MKSTRIKE_ABI the one that Python
    declares.

    The names of two bits of a mode were exchanged once, and every program that was compiled with the header still passed."""
    path, text, crate = "include/mkstrike.h", house.text("include/mkstrike.h"), "crates/mkstrike_c/src/"
    given = re.findall(r"\bMKSTRIKE_(\w+) = (\d),|#define MKSTRIKE_(\w+) UINT32_C\((\w+)\)", text)
    told = {one or other: number_of(value or more) for one, value, other, more in given}
    due = {}
    for name, (file, pattern) in CONSTANTS.items():
        found = re.findall(pattern, house.text(crate + file))
        due[name] = number_of(found[0]) if len(found) == 1 else None
    python = re.search(r"^ABI = (\d+)", house.text("python/mkstrike/_library.py"), re.MULTILINE)
    due["ABI"] = int(python.group(1)) if python and "libmkstrike.so.%s." % python.group(1) in text else None
    for name in sorted(set(told) | set(due)):
        if told.get(name) != due.get(name) or name not in told:
            yield path, 1, "MKSTRIKE_%s is %s, and %s in the code" % (name, told.get(name), due.get(name))
    structs = dict(structs_of_header(text))
    code = dict(struct for source in house.paths(crate + "*.rt") for struct in structs_of_code(house.text(source)))
    for name in sorted(set(structs) | set(code)):
        if structs.get(name) != code.get(name):
            yield path, 1, "struct %s has the fields %s, and %s in the code" % (name, structs.get(name), code.get(name))


def methods(house, crate):
    """The methods of a crate's types, as (file of the type, TYPE, name); of a trait's method TYPE is followed by the trait."""
    declared, found = {}, set()
    sources = house.paths("crates/%s/src/**/*.rt" % crate)
    for path in sources:
        for name in re.findall(r"^(?:pub(?:\(crate\))? )?(?:struct|enum|trait) (\w+)", house.text(path), re.MULTILINE):
            declared[name] = path
    for path in sources:
        for head, body in re.findall(r"^(?:pub )?(?:impl|trait)\b(.*?)\{\n(.*?)^\}", house.text(path), re.MULTILINE | re.DOTALL):
            bare = re.sub(r"<[^<>]*>", "", re.sub(r"<[^<>]*>", "", head)).split(" where ")[0].split(":")[0]
            of, *trait = reversed([re.sub(r".*::|\W", "", it) for it in re.split(r"\bfor\b", bare)])
            found.update((declared.get(of, path), "".join([of] + trait), name) for name in re.findall(r"\bfn (\w+)", body))
    return found


def proofs_have_functions(house):
    """A folder `proofs/FILE/FN` is that of a function of `src/FILE.rt`, `proofs/FN` of one of `src/main.rt`, and
    `proofs/FILE/TYPE/FN` of a method of a type there.

    A proof whose function is gone is read, cited and kept right for nothing. A method may stand in another file than its type; for
    a trait's method TYPE is the type's name and the trait's, as `PlainScan`; for a type with arguments, as `Striker<'a, Rows>`, it
    is `Striker+Rows`, and FILE is that of the method."""
    known = functools.lru_cache(maxsize=None)(functools.partial(methods, house))
    for path in [it for it in house.lemmas() if os.path.basename(it) in ("Answers.antt", "Invariants.antt")]:
        _, crate, _, *files, name, _ = path.split("/")
        file, *types = files or ["main"]
        source = "crates/%s/src/%s.rt" % (crate, file)
        if not house.exists(source):
            yield path, 1, "there is no %s" % source
        elif not ((source, types[0], name) in known(crate) if types and "+" not in types[0] else
                  re.search(r"^ *(pub.*)?\bfn %s\b" % name, house.text(source), re.MULTILINE)):
            yield path, 1, "%s has no function %s" % (source, "::".join(types + [name]))


def lemmas(house):
    """Each lemma of a file of proofs: path, number of its line, its name, whether others may name it, how many lines of it do
    so."""
    for path in house.lemmas():
        inner, found = "", []
        for number, line in house.lines(path):
            if re.match(r"module\b", line):
                inner = "  "
            elif re.match(r"[^\s-]", line):
                inner = ""
            head = re.match(inner + LEMMA, line)
            if found and (head or re.match(inner + r"[^\s-]", line) and words_of(line)[:1] != [found[2]]
                          and line.strip()[:9] != "unfolding"):
                yield tuple(found)
                found = []
            if head:
                found = [path, number, head.group(2), bool(head.group(1)), 0]
            if found:
                found[4] += found[2] in words_of(line)
        if found:
            yield tuple(found)


def words_of(line):
    """The words of a line of a proof, without its comment."""
    return WORD.findall(re.sub(r"--.*", "", line))


def lemmas_named_once(house):
    """A name of a lemma is that of one in its crate.

    A proof is found by the name of what it shows; two of a name show two things, and one of them is badly named."""
    seen = {}
    for path, number, name, _, _ in lemmas(house):
        other = seen.setdefault((path.split("/")[1], name), (path, number))
        if other != (path, number):
            yield path, number, "%s, as %s:%d" % (name, *other)


def lemmas_used(house):
    """Each lemma is named by another, or by an answer or an attribute.

    What nothing uses is read, checked and kept right for nothing. One that is not `pub` is named in its own file, another in its
    crate or by a file that names the proofs of that crate."""
    counted = {}
    for path in house.lemmas() + house.paths("crates/*/src/**/*.rt"):
        text = house.text(path)
        lines = text.split("\n") if "/proofs/" in path else re.findall(r"proofs::.*", text)
        words = collections.Counter(word for line in lines for word in set(words_of(line)))
        for crate in {path.split("/")[1]} | set(re.findall(r"\b(\w+)\.proofs\.", text)):
            counted.setdefault(crate, collections.Counter()).update(words)
        counted[path] = words
    for path, number, name, is_public, own in lemmas(house):
        if counted[path.split("/")[1] if is_public else path][name] <= own:
            yield path, number, "nothing uses %s" % name


def heads_current(house):
    """A name in the head of a lemma file is found in code, definitions or proofs, or is that of a file or a crate.

    The head says what the file shows and what it serves. A name that is gone sends its reader to search for it."""
    read = house.sources() + house.definitions() + house.lemmas()
    known = {word for path in read for word in re.findall(r"\w+", re.sub(r"--.*", "", house.text(path)))}
    known |= {os.path.splitext(os.path.basename(it))[0] for it in read} | set(house.crates())
    for path in house.paths("crates/*/proofs/*.antt"):
        for number, line in list(house.lines(path))[:2]:
            yield from ((path, number, "there is no %s" % it) for it in re.findall(r"`(\w+)`", line) if it not in known)


def heads_name(house):
    """The head of a lemma file names what the file shows: a lemma of the file, in backticks, before what it serves.

    A reader finds a file by what it proves. A subject alone, as "boxes", leaves all lemmas to be read."""
    for path in house.paths("crates/*/proofs/*.antt"):
        text = house.text(path)
        head = re.match(r"(?:--.*\n)*", text).group()
        shown = re.split(r"^-- (?:It serves|Serves|For) ", head, flags=re.MULTILINE)[0]
        own = set(re.findall(OWN, text, re.MULTILINE))
        if not path.endswith("/Lib.antt") and not own & set(re.findall(r"`([\w'-]+)`", shown)):
            yield path, 1, "the head names no lemma of the file"


def edits_apply(house):
    """What an edit that must fail replaces is in its file exactly once.

    Else the gate says so only after an hour, and `make planted` only before a release."""
    for path in [path for folder in EDITS for path in house.paths(folder)]:
        file = None
        if not re.search(r"^old: .*\n+new: ", house.text(path), re.MULTILINE):
            yield path, 1, "it replaces nothing"
        for number, line in house.lines(path):
            word, _, text = line.partition(": ")
            if word == "file":
                file = "/".join([*path.split("/")[:2], text.strip()])
                if not house.exists(file):
                    yield path, number, "there is no %s" % file
                    break
            elif word == "old" and house.text(file).count(text) != 1:
                yield path, number, "%s has the text of old: %d times" % (file, house.text(file).count(text))


def twice(house):
    """Runs of eight equal lines appear once, in code, definitions and proofs together.

    What is written twice is changed once. Lines are compared without spaces; blank lines, imports, comments, parameters of
    functions (a trait's are written again at each impl), the clauses of contracts and lines of brackets alone do not count."""
    seen, last = {}, {}
    for path in house.sources() + house.definitions() + house.lemmas():
        kept, is_head = [], False
        for number, line in enumerate(without_tests(house.text(path)).split("\n"), 1):
            bare = re.sub(r"\s+", "", line)
            is_head = path.endswith(".rt") and (is_head or bool(FUNCTION.match(line)))
            if is_head:
                is_head = not bare.endswith(("{", ";", "}") if FUNCTION.match(line) else ("{", ";"))
                continue
            is_import = re.match(r"\s*(pub )?(ghost )?use\b", line)
            if re.search(r"\w", bare) and not is_import and not re.match(r"//|--|requires|ensures|#", bare):
                kept.append((number, bare))
        at = 0
        while at + TWICE <= len(kept):
            run = tuple(bare for _, bare in kept[at:at + TWICE])
            other = seen.setdefault(run, (path, kept[at][0]))
            if other != (path, kept[at][0]) and last.get(path, 0) <= kept[at][0]:
                last[path] = kept[at + TWICE - 1][0]
                yield path, kept[at][0], "as %s:%d" % other
            at += 1


def readme_short(house):
    """README has at most 110 lines.

    It is for somebody who has two minutes; what they look up is on pages of its own."""
    if house.text("README.md").count("\n") > PAGE:
        yield "README.md", PAGE + 1, "%d lines" % house.text("README.md").count("\n")


def paragraphs_of_markdown(lines):
    """The paragraphs of a document: pairs of the number of the first line and the text. Quotations and what is shown are left
    out."""
    begun, text, is_comment = 0, [], False
    for number, line in enumerate(lines + [""], 1):
        is_comment = is_comment or line.startswith("<!--")
        is_shown = not text and re.match(r" {4}(?!([-*]|\d+\.) )", line)
        is_text = not (is_comment or is_shown or re.match(r">|!\[|#|\s*$|\|", line))
        if text and (not is_text or re.match(r"\s*([-*]|\d+\.) ", line)):
            yield begun, "\n".join(text)
            text = []
        if is_text:
            begun = begun if text else number
            text.append(re.sub(r"^\s*([-*]|\d+\.) ", "", line))
        if line.startswith("|"):
            yield from ((number, cell) for cell in line.split("|"))
        is_comment = is_comment and not line.endswith("-->")


def paragraphs_of_man(lines):
    """The paragraphs of a man page, examples left out."""
    begun, text, is_shown, above = 0, [], False, ""
    for number, line in enumerate(lines + [".PP"], 1):
        is_shown = line == ".EX" or is_shown and line != ".EE"
        is_font = re.match(r"\.(B|I|BR|BI|RB|IR|RI|IB) ", line)
        above, was = line, above
        if line.startswith(".") and not is_font or is_shown or was == ".TP":
            if text:
                yield begun, "\n".join(text)
            text = []
        elif line:
            begun = begun if text else number
            text.append(line.split(" ", 1)[1] if is_font else line)


def paragraphs_of_help(lines):
    """The paragraphs of the texts that are constants of the code, examples left out."""
    texts = []
    for number, line in enumerate(lines, 1):
        if re.match(r'(pub )?const \w+: &str = "|    "', line):
            texts = [line.split('"', 1)[1]]
        elif texts and line == '";':
            yield from ((number - len(texts) + at - 1, text) for at, text in paragraphs_of_markdown(texts))
            texts = []
        elif texts:
            texts.append(line)


def sentences(house, path):
    """Each sentence of a document: the number of its line and its words. What is in backticks is one word, as is a link."""
    kind = paragraphs_of_man if path.endswith(".1") else paragraphs_of_markdown if path.endswith(".md") else paragraphs_of_help
    for first, text in kind(house.text(path).split("\n")):
        text = re.sub(r"`[^`]*`", lambda it: "X" + "\n" * it.group(0).count("\n"), text)
        text = re.sub(r"\]\([^)]*\)", "]", text)
        at = 0
        for end in [it.end() for it in re.finditer(r"(?<!\.)[.!?][\"')*\]]*(?=\s)", text)] + [len(text)]:
            said = text[at:end].split()
            yield first + text[:at + len(text[at:end]) - len(text[at:end].lstrip())].count("\n"), said
            at = end


def sentences_short(house):
    """No sentence of the documents, the man pages and the help has more than 40 words.

    Long sentences are misread. Quotations, examples and pictures do not count."""
    for path in house.documents() + house.paths("CHANGELOG.md") + house.paths("docs/*.1") + house.paths(
        "crates/fx_front/src/help.rt"):
        for number, said in sentences(house, path):
            if len(said) > MOST:
                yield path, number, "%d words: %s .." % (len(said), " ".join(said[:8]))


def idioms(house):
    """No document says "that of", "one that" or "by which"; those that are left are counted, and may only get fewer.

    A reader has to look back for what they stand for. Name it, or begin with the actor."""
    for path in house.documents() + house.paths("CHANGELOG.md") + house.paths("suite/*.md"):
        for it in IDIOM.finditer(house.text(path)):
            yield path, house.text(path).count("\n", 0, it.start()) + 1, " ".join(it.group(0).split())


def doors(house):
    """Each word in the table of docs/WORDS.md on the doors is a word of its door: the command, `strike`, C, Python, the page.

    A word is what is between backquotes; on the page it is what is between commas."""
    path = "docs/WORDS.md"
    text = house.text(path)
    for number, line in enumerate(text.partition("## At the doors")[2].partition("\n## ")[0].split("\n"),
                                  text.partition("## At the doors")[0].count("\n") + 1):
        cells = [it.strip() for it in line.strip("|").split("|")]
        if len(cells) != len(DOORS) + 1 or cells[0] in ("What", "---"):
            continue
        for cell, files in zip(cells[1:], DOORS):
            said = ([it.split()[0] for it in re.findall("`([^`]+)`", cell)] if files != DOORS[-1] else cell.split(", ")
                    if cell != "the same" else [])
            there = "\n".join(house.text(it) for pattern in files for it in house.paths(pattern))
            for word in filter(None, (it.strip('"=.') for it in said)):
                if word not in there:
                    yield path, number, "%s of %s" % (word, cells[0])


RULES = {name: globals()[name] for name in """
    loops_labelled loops_explained functions_documented lines_short lines_of_python suite_alone slashes prover_statements
    words definitions_listed paths anchors names stands_on files_are_files raster_by_its_door counts refusals header
    proofs_have_functions lemmas_named_once lemmas_used heads_current heads_name edits_apply twice readme_short sentences_short
    idioms doors
""".split()}
