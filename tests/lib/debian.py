"""Debian's packages of what checks and tests may lack."""
import os

COMPILER = "gcc, libc6-dev"
ARM, BITMAPS = "gcc-aarch64-linux-gnu, libc6-dev-arm64-cross", "xfonts-utils"
PACKAGES = {
    **{it: it for it in ("bdf2psf", "chromium", "flake8", "libfreetype6", "lintian", "love", "make", "otf2bdf", "pkg-config",
                         "rustc", "strace", "valgrind", "xxd")},
    "AddressSanitizer": COMPILER, "cc": COMPILER, "c++": "g++", "clang": "clang, libclang-rt-dev", "go": "golang-go",
    "node": "nodejs", "tsc": "node-typescript",
    "aarch64-linux-gnu-gcc": ARM, "aarch64-linux-gnu-objdump": ARM, "qemu-aarch64": "qemu-user",
    "nm": "binutils", "objdump": "binutils", "dpkg-deb": "dpkg", "dpkg-gencontrol": "dpkg-dev", "iconv": "libc-bin", "sh": "dash",
    "bdftopcf": BITMAPS, "fonttosfnt": BITMAPS, "mkfontdir": BITMAPS, "ucs2any": BITMAPS, "fc-match": "fontconfig",
    "fc-scan": "fontconfig",
    "fontforge": "fontforge-nox", "grub-mkfont": "grub-common", "psfgettable": "kbd",
    "unshare": "util-linux", "Xvfb": "xvfb", "xlsfonts": "x11-utils", "xset": "x11-xserver-utils",
    "pytest": "python3-pytest", "strike": "python3-fonttools, python3-pil, " + COMPILER,
    "DejaVuSans": "fonts-dejavu-core", "LiberationSans-Regular": "fonts-liberation",
}
# The packages of fonts, by the beginnings of their paths below /usr/share/fonts/truetype; the first that fits counts.
FONTS = {"dejavu/DejaVuSans-Oblique": "fonts-dejavu-extra", "dejavu/": "fonts-dejavu-core", "freefont/": "fonts-freefont-ttf",
         "hack/": "fonts-hack", "jetbrains-mono/": "fonts-jetbrains-mono", "liberation/": "fonts-liberation",
         "noto/": "fonts-noto-core", "roboto/": "fonts-roboto-unhinted"}


def lacking(what):
    """The words that say that this is not installed, and which package has it."""
    return "no %s (Debian: %s)" % (what, PACKAGES[what]) if what in PACKAGES else "no %s" % what


def lacking_font(path):
    """The same of a font, by its path below /usr/share/fonts/truetype."""
    package = next((package for start, package in FONTS.items() if path.startswith(start)), None)
    return "no %s" % os.path.basename(path) + (" (Debian: %s)" % package if package else "")
