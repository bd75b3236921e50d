"""What is looked at of the command as people type it: fonts and outputs by name, help, and the line that says what to do.

Mistakes of users (front_mistakes.py), each with the line that leads out; fonts and outputs by their names, also after a refusal, a
signal, on a full disk and with closed streams; which characters are missing; help and version; that the help and the man pages are
what tools/make_pages writes; files of another kind; and that VERSION is what others say.
"""
import fcntl
import glob
import os
import re
import resource
import shutil
import signal
import subprocess
import termios
import time

import front_mistakes
import prebuilt

SANS = "/usr/share/fonts/truetype/dejavu/DejaVuSans.ttf"
MAKE = ["make", "--ppem", "16", "--chars", "41-5a"]
HALT = ["--ppem", "16", "--char", "19c"]


class Check:
    """Runs the program in an empty folder with the files of the mistakes, and keeps what is wrong; `top` is the repository's."""

    def __init__(self, program, folder, top):
        self.program, self.folder, self.top, self.wrong = program, folder, top, []
        front_mistakes.write_files(folder, SANS)

    def check(self, what, wrong):
        """Keeps what is wrong with a check, which may be empty."""
        self.wrong += ["%s: %s" % (what, wrong)] if wrong else []

    def equal(self, what, one, other):
        self.check(what, "" if one == other else "%r in place of %r" % (one, other))

    def path(self, *names):
        return os.path.join(self.folder, *names)

    def read(self, name):
        """The bytes of a file, or None if it is not there."""
        if not os.path.exists(self.path(name)):
            return None
        with open(self.path(name), "rb") as file:
            return file.read()

    def remove(self, *names):
        """Removes files, if they are there, and all new files that were left."""
        for name in self.files():
            if name in names or name.startswith(".mkstrike-"):
                os.remove(self.path(name))

    def run(self, words, given=None, **how):
        """Runs the program, with a file or bytes as standard input: the status, standard output and standard error."""
        opened = open(given, "rb") if isinstance(given, str) else None
        more = {"stdin": opened} if opened else {"input": given or b""}
        try:
            ran = subprocess.run([self.program, *words], cwd=self.folder, stderr=subprocess.PIPE,
                                 **{"stdout": subprocess.PIPE, "timeout": 60, "preexec_fn": as_started, **more, **how})
        except subprocess.TimeoutExpired:
            return None, b"", "it takes more than a minute"
        finally:
            if opened:
                opened.close()
        return ran.returncode, ran.stdout, ran.stderr.decode("utf-8", "surrogateescape")

    def shell(self, line, *words):
        """Runs a line of the shell, in which `$0` is the program: the status, standard output and standard error."""
        return self.run(["-c", line, self.program, *words], executable=shutil.which("sh"))

    def files(self):
        return sorted(os.listdir(self.folder))


def as_started():
    """Gives a child the signals that a terminal's programs have, whatever this check was started with."""
    for it in (signal.SIGINT, signal.SIGHUP, signal.SIGTERM):
        signal.signal(it, signal.SIG_DFL)


def mistakes(it):
    """Each mistake has the status, the first line and the line that leads out that are due, and at most two further lines."""
    for case in front_mistakes.mistakes(it.path("copy.ttf")):
        if case.needs_font and not os.path.exists(SANS):
            continue
        status, _, said = it.run(case.words, it.path(case.given) if isinstance(case.given, str) else case.given)
        lines = said.split("\n")[:-1]
        wrong = [] if status == case.status else ["status %s in place of %s" % (status, case.status)]
        if not re.fullmatch(case.first, lines[0] if lines else ""):
            wrong.append("the first line is %r" % (lines[0] if lines else ""))
        rest = "\n".join(lines[1:])
        if (case.second not in rest) if case.second else rest:
            wrong.append("the lines after it are %r" % rest)
        if len(lines) > 3:
            wrong.append("%d lines" % len(lines))
        it.check(case.what, "; ".join(wrong))


def fonts_by_name(it):
    """A font by its name gives what it gives by standard input; one that can't be opened is told, with status 1."""
    if os.path.exists(SANS):
        shutil.copy(SANS, it.path("a font.ttf"))
        due = it.run(MAKE, SANS)
        it.check("a strike", "" if due[0] == 0 and due[1].endswith(b"ENDFONT\n") else str(due)[:80])
        odd = "".join(map(chr, range(1, 127))).replace("/", "") + "\xe4"
        shutil.copy(SANS, it.path(odd))
        for what, words in (("by its name", MAKE + ["a font.ttf"]), ("between options", ["make", "a font.ttf"] + MAKE[1:]),
                            ("of an odd name", MAKE + ["./" + odd]),
                            ("after --", MAKE + ["--", "a font.ttf"])):
            it.equal("a font %s" % what, it.run(words), due)
        it.equal("a font as -", it.run(MAKE + ["-"], SANS), due)
        it.equal("a request by standard input", it.run([], b"make --ppem 16 --chars 41-5a\n" + it.read("a font.ttf")), due)
        it.equal("a font for show", it.run(["show", "--ppem", "16", "--char", "41", "a font.ttf"])[0], 0)
        it.equal("a font for dump", it.run(["dump", "--of", "prep", "a font.ttf"])[0], 0)
        it.equal("a font for faces", it.run(["faces", "a font.ttf"]), (0, b"0\tDejaVu Sans\tBook\n", ""))
    for name, why in (("no such.ttf", "there is no such file"), (".", "it is a folder")):
        status, out, said = it.run(MAKE + [name])
        it.equal("a font that can't be opened: %s" % name, (status, out, said.split("\n")[0]),
                 (1, b"", "mkstrike: can't open the font '%s': %s" % (name, why)))
    os.chmod(it.path("empty"), 0)
    if os.geteuid() != 0:
        it.equal("a font that may not be read", it.run(MAKE + ["empty"])[2].split("\n")[0],
                 "mkstrike: can't open the font 'empty': permission denied")
    os.chmod(it.path("empty"), 0o644)


def outputs_by_name(it):
    """-o makes a whole file or none, and leaves an older one as it is unless all was done."""
    before = it.files()
    text = it.run(MAKE, SANS)[1]
    status, out, said = it.run(MAKE + ["-o", "a strike.bdf"], SANS)
    it.equal("-o: nothing on standard output, and the same line", (status, out, said.split(" ")[1]), (0, b"", "glyphs"))
    it.equal("-o: the strike is in the file", it.read("a strike.bdf"), text)
    os.mkdir(it.path("inner"))
    os.symlink("inner/real.bdf", it.path("link.bdf"))
    it.equal("-o through a link", it.run(["make", "-o", "link.bdf"] + MAKE[1:] + [SANS])[0], 0)
    it.equal("-o through a link: the link stays", (os.path.islink(it.path("link.bdf")), os.listdir(it.path("inner"))),
             (True, ["real.bdf"]))
    it.equal("-o to what is no plain file", it.run(MAKE + [SANS, "-o", "/dev/null"])[0], 0)
    for name in ("-", "/dev/stdout", "/dev/fd/1", "/proc/self/fd/1"):
        it.equal("-o %s" % name, it.run(MAKE + [SANS, "-o", name])[:2], (0, text))
    it.equal("-o joined", (it.run(MAKE + [SANS, "-oa strike.bdf"])[0], it.read("a strike.bdf")), (0, text))
    it.equal("-o to a pipe", it.shell('mkfifo pipe; cat pipe & "$0" "$@" -o pipe; wait; rm pipe', *MAKE, SANS)[:2], (0, text))
    for words, due, what in ((["make", "--ppem", "16", "--chars", "19c"], 1, "a refusal"),
                             (["make", "--ppem", "16"], 2, "a wrong command line")):
        it.equal("-o after %s" % what, it.run(words + [SANS, "-o", "new.bdf"])[0], due)
        it.equal("-o over an older file, after %s" % what, it.run(words + [SANS, "-o", "a strike.bdf"])[0], due)
    for name, why in (("inner", "it is a folder"), ("none/new.bdf", "no file can be made in its folder")):
        it.equal("-o %s" % name, it.run(MAKE + [SANS, "-o", name])[::2], (1, "mkstrike: can't write '%s': %s\n" % (name, why)))

    def limited():
        resource.setrlimit(resource.RLIMIT_FSIZE, (4096, 4096))
        signal.signal(signal.SIGXFSZ, signal.SIG_IGN)
    status, _, said = it.run(["make", "--ppem", "16", "--chars", "0-ff", "-o", "a strike.bdf"], SANS, preexec_fn=limited)
    it.equal("-o if the disk takes no more", (status, said.split("\n")[0]), (1, "mkstrike: 70 WriteFailed 4096"))
    it.equal("-o over an older file that is kept", it.read("a strike.bdf"), text)
    it.equal("-o leaves no other file", it.files(), sorted(before + ["a strike.bdf", "inner", "link.bdf"]))


def outputs_that_are_there(it):
    """A font is never the output, by whatever name; a file that may not be written stays; the mode of a file stays."""
    font = it.read("copy.ttf")
    os.link(it.path("copy.ttf"), it.path("hard.ttf"))
    os.symlink("copy.ttf", it.path("soft.ttf"))
    for name in ("copy.ttf", "./copy.ttf", "hard.ttf", "soft.ttf"):
        for words, given in ((["copy.ttf"], None), ([], it.path("copy.ttf")), (["/dev/stdin"], it.path("copy.ttf"))):
            it.equal("-o %s of %s" % (name, words or "standard input"), it.run(MAKE + words + ["-o", name], given)[::2],
                     (1, "mkstrike: can't write '%s': it is the font\n" % name))
    it.check("the font stays", "" if it.read("copy.ttf") == font else "it was written over")
    for mode in (0o640, 0o444):
        with open(it.path("old.bdf"), "wb") as file:
            file.write(b"old")
        os.chmod(it.path("old.bdf"), mode)
        status, _, said = it.run(MAKE + ["copy.ttf", "-o", "old.bdf"])
        due = ((0, "mkstrike: glyphs 26", mode, False) if mode == 0o640
               else (1, "mkstrike: can't write 'old.bdf': it is read-only", mode, True))
        told = (status, said.split("\n")[0][:len(due[1])], os.stat(it.path("old.bdf")).st_mode & 0o777,
                it.read("old.bdf") == b"old")
        it.equal("-o over a file of mode %o" % mode, told, due)
        it.remove("old.bdf")
    it.check("the font still stays", "" if it.read("copy.ttf") == font else "it was written over")
    it.remove("hard.ttf", "soft.ttf")


def traces(it):
    """A trace that halts keeps its lines, also by -o."""
    status, out, said = it.run(["trace", *HALT], SANS)
    it.check("a trace that halts", "" if status == 1 and out.endswith(b"\n") else "status %s" % status)
    told = it.run(["trace", *HALT, "-o", "trace.txt"], SANS)
    it.equal("its -o", (*told, it.read("trace.txt")), (status, b"", said, out))
    it.remove("trace.txt")


def signals(it):
    """A run ends by its signal, and leaves an older file and later runs as they are."""
    with open(it.path("old.bdf"), "wb") as file:
        file.write(b"old")
    for end in (signal.SIGINT, signal.SIGTERM, signal.SIGHUP, signal.SIGKILL):
        ran = subprocess.Popen([it.program, *MAKE, "-o", "old.bdf"], cwd=it.folder, stdin=subprocess.PIPE,
                               stderr=subprocess.DEVNULL, preexec_fn=as_started)
        ran.stdin.write(b"\0\1\0\0")
        ran.stdin.flush()
        while any(fcntl.ioctl(ran.stdin, termios.FIONREAD, bytes(4))) and ran.poll() is None:  # until it reads
            time.sleep(0.01)
        ran.send_signal(end)
        it.equal("signal %d" % end, (ran.wait(timeout=20), it.read("old.bdf")), (-end, b"old"))
        ran.stdin.close()
    words = ["make", "--ppem", "64", "--chars", "20-d7ff", "--refused", "leave-out", "-o", "old.bdf"]
    for at in range(8):
        ran = subprocess.Popen([it.program, *words, SANS], cwd=it.folder, stderr=subprocess.DEVNULL, preexec_fn=as_started)
        time.sleep(0.01 * at)
        ran.kill()
        ran.wait(timeout=20)
        kept = it.read("old.bdf")
        it.check("a kill while the strike is made", "" if kept == b"old" or kept.endswith(b"ENDFONT\n") else "a torn file")
    it.equal("a run after them", (it.run(MAKE + [SANS, "-o", "old.bdf"])[0], it.read("old.bdf")[-8:]), (0, b"ENDFONT\n"))
    it.remove("old.bdf")


def streams(it):
    """Standard streams that are closed or full."""
    text = it.run(MAKE, SANS)[1]
    for what, tail, due in (("closed output", ">&-", (1, b"", "mkstrike: 70 WriteFailed 0")),
                            ("full output", "> /dev/full", (1, b"", "mkstrike: 70 WriteFailed 0")),
                            ("closed input", "<&-", (1, b"", "mkstrike: 71 ReadFailed"))):
        status, out, said = it.shell('"$0" "$@" %s' % tail, *MAKE, *([] if "<" in tail else [SANS]))
        it.equal(what, (status, out, said.split("\n")[0]), due)
    for what, tail in (("closed standard error", "2>&-"), ("all streams closed", "<&- >&- 2>&-"),
                       ("full standard error", "2>/dev/full")):
        status, _, _ = it.shell('"$0" "$@" %s' % tail, *MAKE, SANS, "-o", "whole.bdf")
        it.equal("%s, with -o" % what, (status, it.read("whole.bdf")), (0, text))
        it.remove("whole.bdf")
    with open("/dev/full", "wb") as full:
        said = it.run(MAKE, SANS, stdout=full)[2]
    it.check("a full disk", "" if "disk is full" in said or "free disk space" in said else said)


def help_and_version(it):
    """Help and version are the texts of crates/fx_front/src/help.rt, on standard output, with status 0."""
    with open(os.path.join(it.top, "crates/fx_front/src/help.rt"), encoding="utf-8") as file:
        found = re.findall(r'const (\w+): &str =\s+"(.*?)(?<!\\)";', file.read(), re.S)
    texts = {name.lower(): re.sub(r"\\(.)", r"\1", text).encode() for name, text in found if not name.startswith("REFUSAL_")}
    asked = [("overview", [word]) for word in ("--help", "-h", "help")] + [("version", [word]) for word in ("--version", "-V")]
    for name in set(texts) - {"overview", "version"}:
        asked += [(name, ["help", name]), (name, ["--help", name])] + [(name, [name, word]) for word in ("--help", "-h")
                                                                       if name not in ("explain", "sets")]
    for name, words in asked:
        it.equal(" ".join(words), it.run(words), (0, texts[name], ""))
    it.equal("help of what is no command", it.run(["help", "nothing"])[0], 2)
    for words in (["help"], ["help", "make"], ["--version"]):
        with open("/dev/full", "wb") as full:
            it.equal("%s on a full disk" % " ".join(words), it.run(words, stdout=full)[::2], (1, ""))
    it.check("the commands and the sets", "" if len(texts) == 10 else sorted(texts))
    wide = [line for name, text in texts.items() if name != "version" for line in text.decode().split("\n") if len(line) > 80]
    it.check("lines of 80 characters", wide[0] if wide else "")
    said = re.findall(r"^    (\w+) +\w+ \w+", texts["overview"].decode().partition("Commands:")[2], re.M)
    it.equal("a sentence for each command", sorted(said), sorted({*texts, "help"} - {"overview", "version", "sets"}))


def refusals_explained(it):
    """`explain` prints what docs/REFUSALS.md says of a refusal, by its number and by its name; there is no other refusal."""
    rows = list(prebuilt.refusals())
    for number, name, _, to_do in rows:
        for word in (str(number), name):
            status, out, said = it.run(["explain", word])
            told = " ".join(out.decode().split())
            it.equal("explain %s" % word,
                     (status, told.startswith("%d %s: " % (number, name)), told.endswith(" What to do: %s." % to_do), said),
                     (0, True, True, ""))
    for word in ("300", "0", "StackUnders", "Stack Under"):
        it.equal("explain %s" % word, it.run(["explain", word]),
                 (1, b"", "mkstrike: no refusal has the number or the name '%s'; docs/REFUSALS.md has all\n" % word))
    it.equal("explain of two words", it.run(["explain", "30", "31"]), (0, b"unknown command '30'\n", ""))
    it.check("the refusals", "" if len(rows) > 35 else "%d rows" % len(rows))


def pages_as_written(it):
    """The man pages and the help are what tools/make_pages writes, and each page is one that `man` reads without a warning."""
    ran = subprocess.run([os.path.join(it.top, "tools/make_pages"), "--check"], stdout=subprocess.PIPE, stderr=subprocess.STDOUT)
    it.equal("the man pages and the help", (ran.returncode, ran.stdout.decode()), (0, ""))
    for path in sorted(glob.glob(os.path.join(glob.escape(it.top), "docs/*.1"))) if shutil.which("groff") else ():
        ran = subprocess.run(["groff", "-man", "-Tutf8", "-ww", "-z", path], capture_output=True)
        it.equal("%s, read by groff" % os.path.basename(path), (ran.returncode, ran.stderr.decode()), (0, ""))


def explained(it):
    """`explain` says what is wrong with a command line as it is typed, with a font and an output, and opens neither."""
    for words, due in ((MAKE + ["no such.ttf", "-o", "none/a"], ""), (MAKE + ["one", "two"], "one word too many, 'two'"),
                       (["make", "--ppem", "x"], "--ppem takes a whole number from 1 to 1024, not 'x'"),
                       ([], "the command is missing"),
                       (["mkae"], "unknown command 'mkae'"), (["--help"], "unknown command '--help'")):
        it.equal("explain %s" % " ".join(words), it.run(["explain", *words]), (0, (due + "\n" if due else "").encode(), ""))


def missing_characters(it):
    """The names of missing characters leave out those that are refused, and no property is taken for a character."""
    words = ["make", "--ppem", "16", "--refused", "leave-out", "--property", "ENCODING=65", "--property", "CHARS=1", "--chars",
             "41,19c,4e00-4e02,250"]
    for more in (["FONT"], ["FONT", "-o", "missing.bdf"], ["--missing", "FONT"]):
        said = it.run(words + [SANS if word == "FONT" else word for word in more])[2].split("\n")
        it.equal("the last of the lines, %s" % " ".join(more), (len(said), said[-2]),
                 (5, "mkstrike: 3 of the requested characters are missing in the font: 4e00-4e02"))


def files_of_another_kind(it):
    """A file of each kind that docs/REFUSALS.md lists is named by its words."""
    rows = list(prebuilt.kinds_of_files(it.top))
    for first, _, what, to_do in rows:
        due = "mkstrike: 10 NotTrueType\nmkstrike: the file %s: %s\n" % (what, to_do)
        it.equal("a file of %s" % first, it.run(MAKE, b"0001 0000\n0004" if first is None else first), (1, b"", due))
    it.check("the table of kinds", "" if len(rows) > 15 else "%d rows" % len(rows))


def names_of_the_release(it):
    """VERSION is what others say."""
    with open(os.path.join(it.top, "VERSION"), encoding="utf-8") as file:
        release = file.read().strip()
    with open(os.path.join(it.top, "CHANGELOG.md"), encoding="utf-8") as file:
        newest = re.search(r"^## (\d{4})-(\d\d)-(\d\d)$", file.read(), re.M)
    it.equal("VERSION is the newest release of CHANGELOG.md", release, "0." + "".join(newest.groups()))
    with open(os.path.join(it.top, "include/mkstrike.h"), encoding="utf-8") as file:
        header = file.read()
    it.check("mkstrike.h names the release", "" if "mkstrike %s" % release in header else "it does not name %s" % release)
    number = "MKSTRIKE_VERSION UINT32_C(%s)" % release.split(".")[-1]
    it.check("mkstrike.h has the release as a number", "" if number in header else "there is no %s" % number)
    it.equal("the program's release", it.run(["-V"])[1].decode().split("\n")[0], "mkstrike %s" % release)


CHECKS = (mistakes, fonts_by_name, outputs_by_name, outputs_that_are_there, traces, signals, missing_characters, streams, explained,
          refusals_explained, help_and_version, pages_as_written, files_of_another_kind, names_of_the_release)
# which look at nothing without DejaVu Sans
NEED_FONT = (outputs_by_name, outputs_that_are_there, traces, signals, missing_characters, streams)
