"""Options of other programs, and what does the same here. A word that is no option is taken for a misspelt one only if it is close
to it."""
from __future__ import annotations

from collections.abc import Iterable

CLOSE = 0.8  # how alike a guess must be, of 1
POINTS = "--size takes points at a resolution, as 12pt@96, and pixels per em: points times the resolution, divided by 72"
STYLE = "give the font of that style, as 'DejaVu Sans:bold'"
RANGE = "--chars takes ranges of characters, as 20-7e, and --text FILE those of a text"
ONE_BIT = "a strike has one bit a pixel"
LAYOUT = "--bytes rows|columns|pages and --bits msb|lsb say how pixels become bytes"
NO_KERNING = "BDF has no kerning, nor have the formats that strike writes"
CELLS = "--cell WxH makes cells, and --fit WxH takes the largest size for them"
# By their words: of otf2bdf, lv_font_conv, fontconvert, bdfconv, grub-mkfont, font_to_py, FreeType's programs.
WORDS = {
    **{"--" + it: "--format %s makes that" % it for it in ("bdf", "png", "pbm", "c", "gfx", "lvgl", "raw", "fnt", "py", "psf",
                                                           "pcf", "otb")},
    **dict.fromkeys(("--bold", "--italic", "--oblique", "-b", "--slant", "-w"), STYLE),
    **dict.fromkeys(("--pt", "--points", "--dpi", "--resolution", "--point-size", "-p"), POINTS),
    "-r": RANGE + "; for a resolution: " + POINTS,
    **dict.fromkeys(("--range", "--ranges", "--unicode", "--unicodes", "--characters", "--glyphs", "--subset"), RANGE),
    **dict.fromkeys(("--symbols", "--charset-file", "-k", "-l"),
                    "--text FILE takes the characters of a text: printf '%s' 'TEXT' | strike --text - .."),
    **dict.fromkeys(("--hinted", "--hinting", "--hint", "--autohint-strong", "--force-autohint"),
                    "strikes are hinted by the font's programs if --unhinted is not given"),
    **dict.fromkeys(("--lv-include", "--lv-fallback"), "a font for LVGL takes lvgl.h as LV_LVGL_H_INCLUDE_SIMPLE says; set its "
                                                       "fallback in your program"),
    **dict.fromkeys(("--no-hinting", "--no-hint", "--autohint-off", "--no-autohint"), "--unhinted does that"),
    **dict.fromkeys(("--antialias", "--gray", "--grey", "--no-bitmap", "--lcd", "--lcd-v", "--use-color-info"), ONE_BIT),
    **dict.fromkeys(("--encoding", "--charset", "--map", "-m", "-e"),
                    "--set takes sets of characters by name, --order a set for raw cells"),
    **dict.fromkeys(("--width", "--mono", "--monospace", "--fixed"), CELLS),
    "-f": CELLS + "; --format NAME says what is written",
    **dict.fromkeys(("--kerning", "--no-kerning", "--force-fast-kern-format", "--fast-kerning", "--kern"), NO_KERNING),
    **dict.fromkeys(("--no-compress", "--compress", "--no-prefilter"), "nothing is compressed here"),
    **dict.fromkeys(("--covers", "--coverage", "--check"), "--require refuses a strike that lacks a character"),
    **dict.fromkeys(("--exclude", "--without"), "--chars takes what is wanted; Strike.subset in Python leaves characters out"),
    **dict.fromkeys(("--index", "-i"), "--face N is the font of a collection"),
    **dict.fromkeys(("--output", "--output-file"), "-o FILE writes one file"),
    **dict.fromkeys(("--lv-font-name", "--font-name"), "--name is the name in the files"),
    "-n": "--name is the name in the files, and --unhinted draws without hinting",
    **dict.fromkeys(("--foundry", "--family", "--copyright"), "--property KEY=VALUE adds a property"),
    "-s": "--size N is the size in pixels per em",
    "-c": "--cell WxH makes cells of one advance; --text FILE takes the characters of a text",
    "--weight": "--axes wght=700 is an instance of a variable font", "--bpp": ONE_BIT + ": fonts for LVGL have bpp 1",
    **dict.fromkeys(("--vertical", "--vpack", "--hpack", "--msb-first", "--xmap", "--reverse", "-x", "--stride",
                     "--byte-align"), LAYOUT),
    "--merge": "fonts of one strike come after --font each: strike --font A.ttf --chars ascii --font B.ttf -o FILE",
}


def meant(word: str, options: Iterable[str]) -> str:
    """What leads on from an option that there is not."""
    option = word.partition("=")[0]
    said = WORDS.get(option) or WORDS.get(option[:2] if option[:2] != "--" else "")
    if said or not option.startswith("-"):
        return said or ""
    import difflib
    near = difflib.get_close_matches(option, list(options), 1, CLOSE)
    return "did you mean %s?" % near[0] if near else "strike --help lists the options"
