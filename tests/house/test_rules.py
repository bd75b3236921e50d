"""The sources and the documents keep the rules of the house, and each rule finds the faults that are planted for it."""
import os
import subprocess

import pytest
from needs import tool
from prebuilt import TOP
from rules import LEFT, RULES, House, programs

SUM = "crates/fx_one/src/sum.rt"
# A house of one crate in which no rule finds anything.
MADE = {
    "crates.txt": "# Each crate.\nfx_one: thiserror\nfx_two: fx_one\n",
    "docs/ARCHITECTURE.md": "| Crate | Stands on | What |\n|---|---|---|\n| `fx_one` | | sums |\n| `fx_two` | fx_one | more |\n",
    "docs/DEFINITIONS.md": "| `fx_one/specs/Sums` | sums |\n",
    "README.md": "# Sums\n\nIt [adds](README.md#sums). " + "It `adds up` numbers.\n" * 20 + "\n> " + "word " * 50 + "\n\n    "
    + "word " * 50 + "\n", "docs/mkstrike.1": ".TH SUMS 1\n.SH NAME\nsums\n.PP\n" + "It adds\n.B numbers.\n" * 20 + ".EX\n"
    + "word\n" * 50 + ".EE\n", "crates/fx_front/src/help.rt": '//! Help.\n\nconst ADDS: &str = "sums adds numbers.\n\n'
    + "".join("    word %d\n" % k for k in range(50)) + '\nIt adds them.\n";\n\nconst ENDS: &str =\n    "sums ends.\n";\n',
    "CONTRIBUTING.md": """The code is `crates/fx_one/src/sum.rt`, as `sum_of`; `fx_one` (4 functions); `odd_name`.

    docs/ARCHITECTURE.md
""",
    "crates/fx_one/src/sum.rt": """//! Sums.

/// The sum of the numbers.
pub fn sum(numbers: &[u32]) -> u32
    ensures { result ≡ sum_of numbers.now }
{
    let mut total = 0;
    // The numbers so far are added up.
    'numbers: for number in numbers {
        total = added(total, *number);
    }
    total
}

/// The sum of two numbers.
#[inline]
fn added(one: u32, other: u32) -> u32 {
    // The prover sees the bound of a number where it is read.
    let _bound = other;
    one.saturating_add(other)
}

/// A total.
pub struct Total<'a>(&'a u32);

impl<'a> Total<'a> {
    /// Adds.
    pub fn add(&self) {}
}

impl Scan for Total<'_> {
    fn scan(&self) {}
}
""",
    "crates/fx_one/specs/Sums.antt": "-- Sums.\npub sum_of : List ℕ → ℕ\n",
    "crates/fx_one/proofs/sum/sum/Invariants.antt": "-- what is added up\n",
    "crates/fx_one/proofs/Sums.antt": "-- a sum: `total_least`\npub total_least : ℕ → ℕ\ntotal_least n = total_more n\n\n"
    "total_more : ℕ → ℕ\ntotal_more n = n\n",
    "crates/fx_one/proofs/sum/sum/Answers.antt": "pub returns : goal.returns\nreturns c = total_least c\n",
    "crates/fx_request/src/refusal.rt": """//! Refusals.
            Refusal::BadHead => (13, "BadHead", Location::Nowhere),
            Refusal::BadLoca(g) => (17, "BadLoca", Location::Glyph(g)),
            Refusal::Short(tag) => (18, "Short", Location::Table(tag)),
            Refusal::BadName(p) => (66, "BadName", Location::Property(p)),
            Refusal::Busy => (69, "Busy", Location::Nowhere),
            Refusal::WriteFailed(n) => (70, "WriteFailed", Location::Bytes(n)),
            Refusal::CopyFailed => (79, "CopyFailed", Location::Nowhere),
            Refusal::Late => (80, "Late", Location::Nowhere),
""",
    "crates/fx_machine/src/halt.rt": "//! Halts.\n            Cause::StackUnder => (30, \"StackUnder\"),\n",
    "docs/WORDS.md": "# Words\n\n## At the doors\n\n| What | `sums` | | | | Page |\n|---|---|---|---|---|---|\n| a sum | `adds` N "
                     "| | | | Number |\n",
    "web/index.html": "<label>Number</label>\n",
    "docs/REFUSALS.md": "| 13 | BadHead | a |\n| 17 | BadLoca g | b |\n| 30 | StackUnder | c |\n| 64 | BadMode | d |\n| 65 | "
                        "BadBlock | d |\n| 18 | Short tag | b |\n| 66 | BadName p | b |\n| 69 | Busy | e |\n"
                        "| 70 | WriteFailed n | e |\n| 79 | CopyFailed | e |\n| 80 | Late | e |\n",
    "include/mkstrike.h": """/* libmkstrike.so.1. */
#define MKSTRIKE_VERSION UINT32_C(20261125)
#define MKSTRIKE_ABI UINT32_C(1)
enum {
    MKSTRIKE_DONE = 0,
    MKSTRIKE_MISSING = 1,
    MKSTRIKE_BAD_HEAD = 13,
    MKSTRIKE_BAD_LOCA = 17,
    MKSTRIKE_STACK_UNDER = 30,
    MKSTRIKE_BAD_MODE = 64,
    MKSTRIKE_BAD_BLOCK = 65,
    MKSTRIKE_SHORT = 18,
    MKSTRIKE_BAD_NAME = 66,
    MKSTRIKE_BUSY = 69,
    MKSTRIKE_LATE = 80
};
#define MKSTRIKE_HINTED UINT32_C(0x001)
#define MKSTRIKE_DROPOUT UINT32_C(0x002)
#define MKSTRIKE_DROPOUT_NEAR UINT32_C(0x004)
#define MKSTRIKE_DROPOUT_FONT UINT32_C(0x008)
#define MKSTRIKE_CAREFUL UINT32_C(0x010)
#define MKSTRIKE_PACKED UINT32_C(0x100)
#define MKSTRIKE_X11 UINT32_C(0x200)
#define MKSTRIKE_NONE UINT32_C(0xFFFFFFFF)
#define MKSTRIKE_FPGM UINT32_C(0x10000)
#define MKSTRIKE_PREP UINT32_C(0x10001)
struct mkstrike_drawn {
    size_t bytes;     /* of the pixels */
    uint32_t glyphs, missing;
};
""",
    "python/mkstrike/_library.py": "ABI = 1  # MKSTRIKE_ABI\n",
    "crates/mkstrike_c/src/glyph.rt": "//! Glyphs.\nconst MISSING: u32 = 1;\nif made.is_some() { 0 } else { MISSING }\n",
    "crates/mkstrike_c/src/version.rt": "//! The release.\nconst VERSION: u32 = 20_261_125;\n",
    "crates/mkstrike_c/src/refused.rt": "//! Refusals.\npub const NONE: u32 = 0xFFFF_FFFF;\npub const FPGM: u32 = 0x1_0000;\npub "
                                        "const PREP: u32 = 0x1_0001;\n",
    "crates/mkstrike_c/src/gathered.rt": "//! Counts.\n#[repr(C)]\n#[derive(Clone)]\npub struct Drawn {\n    pub bytes: usize,\n  "
                                         "  /// Of it.\n    pub glyphs: u32,\n"
    "    pub missing: u32,\n}\n",
    "crates/mkstrike_c/src/mode.rt": """//! Modes.
if mode / 8 % 2 == 1 {
    return Dropout::Font;
}
if mode / 4 % 2 == 1 {
    return Dropout::Near;
}
if mode / 2 % 2 == 1 {
    return Dropout::Left;
}
hinting: mode % 2 == 1,
careful: mode / 16 % 2 == 1,
/// Packed.
pub fn is_packed(mode: u32) -> bool
    ensures { result ≡ is_packed mode }
{
    mode / 256 % 2 == 1
}
/// For X11.
pub fn is_x11(mode: u32) -> bool
    ensures { result ≡ is_x11 mode }
{
    mode / 512 % 2 == 1
}
""",
    "setup.cfg": "[flake8]\nmax-line-length = 132\n",
    "tools/sums": "#!/usr/bin/env python3\nprint(one + other)\n",
    "suite/sums.py": "import os\n",
    "tools/odd_name.txt": "its name is known\n",
    "crates/fx_one/must-fail/difference.edit": "file: src/sum.rt\nold: saturating_add\nnew: saturating_sub\n",
    "crates/fx_one/planted/none.edit": "file: src/sum.rt\nold: 'numbers: for number in numbers\nnew: 'numbers: for number in "
                                       "none\n",
}

# Each fault: the rule that must find it, the file, and what is replaced there by what; a new file has nothing replaced.
# Then the line of the first finding, if it is not the first one of that file.
PLANTED = [
    ("loops_labelled", "crates/fx_one/src/sum.rt", "'numbers: for", "for", 9),
    ("loops_explained", "crates/fx_one/src/sum.rt", "    // The numbers so far are added up.\n", "", 8),
    ("functions_documented", "crates/fx_one/src/sum.rt", "/// The sum of two numbers.\n", "", 16),
    ("lines_short", "crates/fx_one/src/sum.rt", "*number)", "*number" + " + 0" * 40 + ")", 10),
    ("lines_of_python", "tools/sums", "one + other", "one" + " + other" * 20, 2),
    ("lines_of_python", "setup.cfg", "132", "79"),
    ("suite_alone", "suite/sums.py", "import os", "sys.path.append(\"../tests/lib\")"),
    ("slashes", "crates/fx_one/src/sum.rt", "/// The sum of two", "//// The sum of two", 15),
    ("prover_statements", "crates/fx_one/src/sum.rt", "    // The prover sees the bound of a number where it is read.\n", "", 18),
    ("words", "crates/fx_one/src/sum.rt", "the numbers.", "so many numbers.", 3),
    ("words", "CONTRIBUTING.md", "The code is", "The lawful code is"),
    ("definitions_listed", "docs/DEFINITIONS.md", "specs/Sums", "specs/Sum", "crates/fx_one/specs/Sums.antt:1"),
    ("paths", "CONTRIBUTING.md", "crates/fx_one/src/sum.rt", "crates/fx_one/src/sums.rt"),
    ("paths", "CONTRIBUTING.md", "    docs/", "    docs/old/", 3),
    ("anchors", "README.md", "# Sums", "# The sums", 3),
    ("names", "CONTRIBUTING.md", "`sum_of`", "`total_of`"),
    ("stands_on", "crates.txt", "fx_two: fx_one", "fx_two: thiserror", "docs/ARCHITECTURE.md:1"),
    ("files_are_files", "tools/links", "", "link to ../CONTRIBUTING.md"),
    ("raster_by_its_door", "crates/fx_strike/src/draw.rt", "", "//! Drawing.\n\nuse fx_winding::Scan;\n", 3),
    ("raster_by_its_door", "crates/fx_strike/specs/inner/Drawing.antt", "", "-- Drawing.\n\npub pieces : Pieces\n", 3),
    ("raster_by_its_door", "crates/fx_views/src/choices.rt", "", "//! Choices.\n\nuse fx_winding::Scan;\n", 3),
    ("counts", "CONTRIBUTING.md", "(4 functions)", "(3 functions)"),
    ("refusals", "crates/fx_request/src/refusal.rt", "(17, ", "(18, ", "docs/REFUSALS.md:1"),
    ("refusals", "crates/fx_machine/src/halt.rt", "Cause::", "Cause::StackOver => (31, \"StackOver\"),\n            Cause::",
     "docs/REFUSALS.md:1"),
    ("refusals", "docs/REFUSALS.md", "BadLoca g", "BadLoca"),
    ("refusals", "include/mkstrike.h", "BAD_LOCA", "BAD_LOCATION"),
    ("refusals", "include/mkstrike.h", "    MKSTRIKE_BAD_HEAD = 13,\n", ""),
    ("header", "include/mkstrike.h", "NEAR UINT32_C(0x004)", "NEAR UINT32_C(0x008)"),
    ("header", "crates/mkstrike_c/src/mode.rt", "return Dropout::Near", "return Dropout::Font", "include/mkstrike.h:1"),
    ("header", "crates/mkstrike_c/src/mode.rt", "mode / 256 ", "mode / 512 ", "include/mkstrike.h:1"),
    ("header", "crates/mkstrike_c/src/refused.rt", "FPGM: u32 = 0x1_0000", "FPGM: u32 = 0x1_0002", "include/mkstrike.h:1"),
    ("header", "crates/mkstrike_c/src/glyph.rt", "{ 0 }", "{ 2 }", "include/mkstrike.h:1"),
    ("header", "include/mkstrike.h", "ABI UINT32_C(1)", "ABI UINT32_C(2)"),
    ("header", "include/mkstrike.h", "#define MKSTRIKE_PREP UINT32_C(0x10001)\n", ""),
    ("header", "include/mkstrike.h", "#define MKSTRIKE_NONE", "#define MKSTRIKE_MOST UINT32_C(7)\n#define MKSTRIKE_NONE"),
    ("header", "include/mkstrike.h", "glyphs, missing;", "missing, glyphs;"),
    ("header", "crates/mkstrike_c/src/gathered.rt", "glyphs: u32", "glyphs: u64", "include/mkstrike.h:1"),
    ("proofs_have_functions", "crates/fx_one/src/sum.rt", "fn sum(", "fn total(", "crates/fx_one/proofs/sum/sum/Answers.antt:1"),
    ("proofs_have_functions", "crates/fx_one/proofs/sum/Sums/sum/Answers.antt", "", "-- of a type that is not there\n"),
    ("lemmas_named_once", "crates/fx_one/proofs/Totals.antt", "", "pub total_least : ℕ\ntotal_least = total_more\n"),
    ("lemmas_used", "crates/fx_one/proofs/sum/sum/Answers.antt", "total_least c", "refl", "crates/fx_one/proofs/Sums.antt:2"),
    ("heads_current", "crates/fx_one/proofs/Sums.antt", "-- a sum: `total_least`\n", "-- a sum: `total_least`, `total_most`\n"),
    ("heads_name", "crates/fx_one/proofs/Sums.antt", "-- a sum: `total_least`\n", "-- a sum\n-- Serves `total_least`.\n"),
    ("edits_apply", "crates/fx_one/src/sum.rt", "saturating_add", "wrapping_add", "crates/fx_one/must-fail/difference.edit:2"),
    ("edits_apply", "crates/fx_one/planted/none.edit", "old: 'numbers", "old: 'figures", 2),
    ("edits_apply", "crates/fx_one/planted/none.edit", "old: ", "older: "),
    ("readme_short", "README.md", "# Sums\n", "# Sums\n" * 100, 111),
    ("sentences_short", "README.md", "#sums). It", "#sums) " + "it " * 38, 3),
    ("sentences_short", "docs/mkstrike.1", "sums\n.PP", "sums\n" + "and\n.B on\n" * 20 + ".PP", 3),
    ("sentences_short", "crates/fx_front/src/help.rt", "It adds them.", "It adds " + "them " * 39, 56),
    ("sentences_short", "crates/fx_front/src/help.rt", "sums ends.", "sums " + "ends " * 40, 60),
    ("sentences_short", "CONTRIBUTING.md", "The code is", "The " + "good\n" * 40 + "code is"),
    ("sentences_short", "docs/DEFINITIONS.md", "| sums", "| " + "and sums " * 21),
    ("idioms", "CONTRIBUTING.md", "The code is", "The one\nthat adds is"),
    ("idioms", "docs/DEFINITIONS.md", "| sums", "| those of sums"),
    ("doors", "docs/WORDS.md", "`adds`", "`sorts`", 7),
    ("doors", "docs/WORDS.md", "Number", "Count", 7),
    ("twice", "crates/fx_one/specs/Sums.antt", "pub", "".join("fact%d\n" % k for k in range(8)) * 2 + "pub", 10),
    ("lines_short", SUM, "let mut total = 0;", "let mut total = 0; // " + "x" * 107, 7),
    ("lines_of_python", "tools/sums", "other)", "other)  # " + "x" * 111, 2),
    ("suite_alone", "suite/sums.py", "import os", "import os\nname = 'tools'", 2),
    ("suite_alone", "suite/sums.py", "import os", "import os\nname = \"tests/lib\"", 2),
    ("words", "CONTRIBUTING.md", "The code is", "Lawful is"),
    ("words", "crates/fx_one/specs/Sums.antt", "-- Sums.", "-- Lawful sums."),
    ("definitions_listed", "docs/DEFINITIONS.md", "fx_one/specs/Sums`", "fx_two/specs`, `Sums`", "crates/fx_one/specs/Sums.antt:1"),
    ("paths", "CONTRIBUTING.md", "The code is", "[It](docs/GONE.md) is"),
    ("anchors", "CONTRIBUTING.md", "The code is", "[It](docs/GONE.md#gone) is"),
    ("anchors", "CONTRIBUTING.md", "The code is", "[It](#gone) is"),
    ("names", "CONTRIBUTING.md", "The code is", "The code is `SumOf`,"),
    ("names", "CONTRIBUTING.md", "The code is", "The code is `sum::gone`,"),
    ("functions_documented", SUM, "\nimpl Scan", "\nfn gone() {}\n\nimpl Scan", 31),
    ("functions_documented", SUM, "    /// Adds.\n", "", 27),
    ("functions_documented", SUM, "/// The sum of two numbers.\n#[inline]\n", "#[allow(\n    one,\n    two,\n)]\n", 19),
    ("functions_documented", SUM, "    /// Adds.\n    pub", "    pub(crate) const unsafe", 27),
    ("loops_labelled", SUM, "    let mut total", "    // It ends.\n    loop {}\n    let mut total", 8),
    ("loops_labelled", SUM, "    let mut total", "    // It ends.\n    while true {}\n    let mut total", 8),
    ("proofs_have_functions", "crates/fx_one/proofs/sum/Total/scan/Answers.antt", "", "-- of a trait\n"),
    ("proofs_have_functions", "crates/fx_one/proofs/sum/TotalScan/add/Answers.antt", "", "-- of no trait\n"),
    ("proofs_have_functions", "crates/fx_one/proofs/sum/gone/Invariants.antt", "", "-- of no function\n"),
    ("proofs_have_functions", "crates/fx_one/proofs/gone/sum/Answers.antt", "", "-- of no source\n"),
    ("proofs_have_functions", "crates/fx_one/proofs/sum/Answers.antt", "", "-- of no main\n"),
    ("lemmas_used", "crates/fx_one/proofs/Sums.antt", "= total_more n", "= n", 5),
    ("lemmas_used", "crates/fx_one/proofs/Sums.antt", "= total_more n", "= n -- total_more n", 5),
    ("lemmas_used", "crates/fx_one/proofs/Sums.antt", "total_more n = n",
     "total_more n = n\n\nmodule M where\n  gone : ℕ\n  gone = 1", 9),
    ("heads_current", "crates/fx_one/proofs/Sums.antt", "`total_least`\n", "`total_least`\n-- and `total_most`\n", 2),
    ("edits_apply", "crates/fx_one/planted/none.edit", "src/sum", "src/gone"),
    ("edits_apply", SUM, "let mut total = 0;", "let mut total = 0; // saturating_add",
     "crates/fx_one/must-fail/difference.edit:2"),
    ("readme_short", "README.md", "# Sums\n", "# Sums\n" * 86, 111),
    ("sentences_short", "README.md", "#sums). It", "#sums) " + "it " * 37, 3),
    ("sentences_short", "README.md", "> word", "word", 24),
    ("sentences_short", "README.md", "\n\n    word", "\n\n- " + "word " * 40 + "\n    word", 26),
    ("sentences_short", "docs/mkstrike.1", ".EX\n", "", 45),
    ("doors", "docs/WORDS.md", "| Number |", "| Number, Count |", 7),
    ("doors", "docs/WORDS.md", "N | | |", "N | | `mkstrike_gone()` |", 7),
    ("twice", "crates/fx_one/specs/Sums.antt", "pub", "".join("fact%d\n-- it\n" % k for k in range(8)) * 2 + "pub", 18),
    ("twice", SUM, "    let mut total", "".join("    fact%d();\n" % k for k in range(8)) * 2 + "    let mut total", 15),
]

# What no rule finds anything in: the file, and what is replaced there by what.
NOT_WRONG = [
    (SUM, "let mut total = 0;", "let mut total = 0; // " + "x" * 106), ("tools/sums", "other)", "other)  # " + "x" * 110),
    (SUM, "//! Sums.\n", "//! Sums.\nuse " + "x" * 150 + ";\n#![" + "x" * 150 + "]\n"),
    ("README.md", "# Sums\n", "# Sums\n" * 85), ("README.md", "#sums). It", "#sums) " + "it " * 36),
    ("README.md", "#sums). It", "#sums) " + "it " * 30 + "(it?) " + "it " * 30 + "\"it!\" " + "it " * 30),
    ("README.md", "# Sums\n", "# Sums\n\n<!--\n" + "word " * 50 + "\n-->\n"),
    ("README.md", "# Sums", "# Sums\n\n![" + "word " * 50 + "](x)"),
    ("crates/fx_one/proofs/Sums.antt", "`total_least`\n", "`total_least`\n-- and\n-- `total_most`\n"),
    ("crates/fx_one/proofs/Sums.antt", "`total_least`\n", "`total_least`, of `Sums` in `fx_two` and `added`\n"),
    ("crates/fx_one/specs/Sums.antt", "pub", "".join("fact%d\n" % k for k in range(7)) * 2 + "pub"),
    ("crates/fx_one/specs/Sums.antt", "pub", ("".join("fact%d\n" % k for k in range(7)) + "-- it\n\n(\nuse it\n") * 2 + "pub"),
    (SUM, "let mut total", "let lawful"), ("CONTRIBUTING.md", "The code is", "The unlawful code is"),
    ("docs/DEFINITIONS.md", "specs/Sums", "specs"),
    ("crates/fx_one/specs/Lib.antt", "", "-- All.\n"), ("crates/fx_one/specs/inner.antt", "", "-- All.\n"),
    ("crates/fx_one/specs/inner/More.antt", "", "-- More.\n"),
    ("CONTRIBUTING.md", "The code is", "The code is `src/sum.rt`, `fx_one/src/sum.rt`, `fx_one/specs/Sums`, `crates/NAME/it.rt`, "
     "`crates/out/it`, `/usr/share/it`, `docs/`, `crates/fx_one/src/`, `docs/mkstrike.1` and [it](docs/WORDS.md),"),
    ("docs/WORDS.md", "# Words\n", "# Words\n\n`REFUSALS.md`, `../docs/WORDS.md`\n"),
    ("CONTRIBUTING.md", "The code is", "# The code: all\n\n[It](#the-code-all), [more](docs/WORDS.md#at-the-doors)"),
    ("CONTRIBUTING.md", "The code is", "The code is `sum`, `gone`, `Gone`, `GONE`, `_gone_` of `-gone_it` in `gone_it.txt`,"),
    ("CONTRIBUTING.md", "`sum_of`", "`sum_of`, `Total::add`, `BadHead`, `saturating_add`, `none`, `difference`"),
    (SUM, "    fn scan(&self) {}\n}\n",
     "    fn scan(&self) {}\n}\n\n#[cfg(test)]\nmod tests {\n    fn gone() {\n        for it in gone {\n        }\n    }\n}\n"),
    (SUM, "/// The sum of two numbers.\n#[inline]\n", "/// The sum of two numbers.\n#[inline]\n#[allow(\n    one,\n    two,\n)]\n"),
    ("crates/fx_one/src/tests.rt", "", "fn gone() {\n    for it in gone {\n    }\n}\n"),
    ("crates/acceptance/src/it.rt", "", "fn gone() {\n    for it in gone {\n    }\n}\n"),
    ("crates/fx_one_tests/src/it.rt", "", "fn gone() {\n    for it in gone {\n    }\n}\n"),
    ("crates/mkstrike/src/main.rt", "", "//! The program.\nfn main() {\n    'all: loop {\n    }\n}\n"),
    ("crates/fx_one/proofs/sum/Total/add/Answers.antt", "", "-- of a type\n"),
    ("crates/fx_one/proofs/sum/TotalScan/scan/Answers.antt", "", "-- of a trait\n"),
    ("crates/fx_one/proofs/sum/Total+Rows/add/Invariants.antt", "", "-- of a type with arguments\n"),
    ("crates/fx_one/proofs/gone/Other.antt", "", "-- of nothing\n"),
    ("crates/fx_two/proofs/Sums.antt", "", "-- a sum: `total_least`\npub total_least : ℕ\ntotal_least = total\n\n"
     "total : ℕ\ntotal = total_least\n"),
    ("docs/WORDS.md", "| Number |", "| the same |"), ("docs/WORDS.md", "| Number |", "| Number, label |"),
]


@pytest.fixture(name="house", scope="module")
def house_of_this():
    """This repository."""
    return House(TOP)


@pytest.mark.parametrize("name", RULES)
def test_rule(name, house):
    """A rule finds nothing, or no more than is left of older times."""
    found, left = ["%s:%d: %s" % it for it in RULES[name](house)], LEFT.get(name, 0)
    assert len(found) <= left, "%s\n%s" % (RULES[name].__doc__, "\n".join(found))
    if len(found) < left:
        print("%s: %d are left, so LEFT can say so, which has %d" % (name, len(found), left))


def found_in(top):
    """What each rule finds in a house, of those that find something."""
    house = House(str(top))
    return {name: found for name, found in ((name, list(rule(house))) for name, rule in RULES.items()) if found}


def build(top, path="crates.txt", old="", new=""):
    """Builds the made house in a folder, with a text of a file replaced."""
    for made in {**MADE, path: ""}:
        text, place = MADE.get(made, ""), top / made
        place.parent.mkdir(parents=True, exist_ok=True)
        if made == path:
            assert text.count(old) == 1 or not old, "%s has no %s" % (path, old)
            text = text.replace(old, new) if old else new or text
        if made == path and new.startswith("link to "):
            place.symlink_to(new[len("link to "):])
        else:
            place.write_text(text, encoding="utf-8")


def test_nothing_planted(tmp_path):
    """No rule finds anything in the made house."""
    build(tmp_path)
    assert not found_in(tmp_path)


@pytest.mark.parametrize("number", range(len(PLANTED)), ids=[it[0] for it in PLANTED])
def test_planted(number, tmp_path):
    """A rule finds the fault that is planted for it, and says in which line."""
    name, path, old, new, *place = PLANTED[number]
    build(tmp_path, path, old, new)
    found, place = found_in(tmp_path), place[0] if place else 1
    lines = ["%s:%d" % it[:2] for it in found.get(name, [])]
    assert lines[:1] == [place if isinstance(place, str) else "%s:%d" % (path, place)], "`%s` in %s for `%s`: found %s" % (
        new, path, old, found or "nothing")
    assert all(line >= 1 for of_a_rule in found.values() for _, line, _ in of_a_rule), found


@pytest.mark.parametrize("number", range(len(NOT_WRONG)))
def test_not_wrong(number, tmp_path):
    """No rule finds anything in what only looks like a fault, or is as much as a rule allows."""
    build(tmp_path, *NOT_WRONG[number])
    assert not found_in(tmp_path), NOT_WRONG[number]


def test_each_rule_has_a_planted_fault():
    """No rule is without a fault that it must find."""
    assert set(RULES) == {it[0] for it in PLANTED}


def said_by_flake8(top, paths):
    """What flake8 says of programs in Python, with the settings of this repository."""
    words = [tool("flake8"), "--config", os.path.join(TOP, "setup.cfg"), *paths]
    return subprocess.run(words, cwd=top, stdin=subprocess.DEVNULL, capture_output=True, text=True, check=False).stdout


def test_flake8(house, tmp_path):
    """flake8 has nothing to say of any program in Python, also of those without an ending, and finds an import that is not used."""
    assert not said_by_flake8(TOP, programs(house))
    (tmp_path / "sums").write_text("#!/usr/bin/env python3\nimport os\n")
    assert " F401 " in said_by_flake8(tmp_path, ["sums"])
