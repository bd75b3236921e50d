"""The packages of packaging/build: made again, and installed, run and removed in an empty root."""
import glob
import gzip
import hashlib
import os
import re
import shutil
import subprocess
import sys
import tarfile
import zipfile

import compile_lines
import other_machine
import prebuilt
import pytest
import sample_font
from making import fonts
from needs import dist, left_out, tool
from prebuilt import DIST, TOP
from program import python_with

OTHER = {"TZ": "Asia/Kathmandu", "LC_ALL": "C", "LANG": "C", "HOME": "/nonexistent", "PYTHONHASHSEED": "7"}
ADMIN = "var/lib/dpkg"
C_LIBRARY = """\
Package: libc6
Status: install ok installed
Architecture: amd64
Maintainer: none
Version: %s
Description: the C library of this machine

"""
BUILD, PACKAGES = os.path.join(TOP, "packaging/build"), "usr/lib/python3/dist-packages"
# Prints the release, and what a file is that is no TrueType font, which is in a file of the package.
TOLD = "import mkstrike, mkstrike.refused as it; print(mkstrike.__version__, it.kind_of(b'OTTO'))"
# Prints the strike of the font on standard input.
STRIKE = "import sys, mkstrike; sys.stdout.buffer.write(mkstrike.Font(sys.stdin.buffer.read()).strike(16, '20-42').text)"


def run(words, **how):
    """Runs a command, which must end well; returns what it printed."""
    ran = subprocess.run(words, **{"stdin": subprocess.DEVNULL, "stdout": subprocess.PIPE, "stderr": subprocess.STDOUT, **how},
                         check=False)
    assert ran.returncode == 0, "%s: status %d: %s" % (" ".join(map(str, words[:4])), ran.returncode,
                                                       ran.stdout.decode("latin-1")[-900:])
    return ran.stdout


@pytest.fixture(name="made", scope="module")
def packages(tmp_path_factory):
    """The folder of the packages."""
    for name in ("dpkg-gencontrol", "objdump", "cc"):
        tool(name)
    if (os.uname().sysname, os.uname().machine) != ("Linux", "x86_64"):
        pytest.skip("not x86-64 Linux")
    dist()
    folder = tmp_path_factory.mktemp("made")
    run([BUILD, str(folder)])
    return folder


@pytest.fixture(name="due", scope="module")
def strike_of_the_program():
    """What the program makes of the fixture."""
    words = [os.path.join(DIST, "mkstrike"), "make", "--ppem", "16", "--chars", "20-42"]
    return run(words, stdin=None, input=fonts.FIXTURE, stderr=subprocess.DEVNULL)


def one(made, pattern):
    """The package of a name."""
    found = glob.glob(str(made / pattern))
    if not found:
        left_out("aarch64-linux-gnu-gcc")
    assert len(found) == 1
    return found[0]


def hashes(folder):
    """The names and hashes of the files in a folder."""
    return {it.name: hashlib.sha256(it.read_bytes()).hexdigest() for it in folder.iterdir()}


def copy_of_the_checkout(top):
    """A copy of the checkout in a folder: what looks for its own place as files, the rest as links."""
    top.mkdir()
    for name in set(os.listdir(TOP)) - {".git", "out"}:
        if name in ("packaging", "tools"):
            shutil.copytree(os.path.join(TOP, name), top / name)
        else:
            (top / name).symlink_to(os.path.join(TOP, name))
    return top / "packaging/build"


def test_made_again(made, tmp_path):
    """Made without the Rattle kit, of a checkout elsewhere, in another environment, time zone and mask of rights, they have the
    same bytes."""
    without_kit = [it for it in os.environ["PATH"].split(":") if not os.path.exists(os.path.join(it, "rt"))]
    env = {**os.environ, **OTHER, "PATH": ":".join([*without_kit, "/usr/bin", "/bin"])}
    build = copy_of_the_checkout(tmp_path / "a checkout")
    printed = run(["sh", "-c", 'umask 077; exec "$@"', "", build, tmp_path / "other folder"], cwd=tmp_path, env=env, stderr=None)
    # by their hashes: pytest would take minutes to show how megabytes differ
    other = hashes(tmp_path / "other folder")
    assert other == hashes(made) and printed.decode() == "".join("%s  %s\n" % (other[it], it) for it in sorted(other))


# What a system has that has neither a C compiler nor Debian's tools, and what is then left out.
BARE = "bash basename cat cp cut date dirname env gzip head install mkdir mktemp mv readlink rm sed sha256sum sort tar"
LEFT_OUT = """\
build: left out: Debian packages: no dpkg-gencontrol (Debian: dpkg-dev)
build: left out: wheels, python3-mkstrike: no setuptools (Debian: python3-setuptools, python3-wheel)
build: left out: the C library for amd64, the tarball: no C compiler with headers (Debian: gcc, libc6-dev)
build: left out: packages for arm64: no aarch64-linux-gnu-gcc with headers (Debian: gcc-aarch64-linux-gnu, libc6-dev-arm64-cross)
"""


def test_what_is_left_out(tmp_path):
    """On such a system, with a compiler for arm64 that lacks its headers, the npm package is made, and the rest is named."""
    dist()
    tools = tmp_path / "tools"
    tools.mkdir()
    for name in BARE.split():
        (tools / name).symlink_to(tool(name))
    (tools / "python3").symlink_to(sys.executable)
    (tools / "setuptools.py").write_text("raise ImportError\n")
    (tools / "aarch64-linux-gnu-gcc").symlink_to("/bin/false")
    env = {"PATH": str(tools), "PYTHONPATH": str(tools)}
    ran = subprocess.run([BUILD, tmp_path / "made"], env=env, stdin=subprocess.DEVNULL, capture_output=True, text=True, check=False)
    assert (ran.returncode, ran.stderr) == (0, LEFT_OUT)
    (name, sum_of_it), = hashes(tmp_path / "made").items()
    assert re.fullmatch(r"mkstrike-[\d.]+(\+\w+)?\.tgz", name) and ran.stdout == "%s  %s\n" % (sum_of_it, name)


def test_lintian(made):
    """Lintian is content."""
    for deb in made.glob("*.deb"):
        ran = subprocess.run([tool("lintian"), "--allow-root", str(deb)], stdin=subprocess.DEVNULL, capture_output=True, text=True,
                             check=False)
        said = [it for it in ran.stdout.splitlines() if re.match("[EW]: ", it)]
        assert not said and ran.returncode in (0, 2), "%s: %s %s" % (deb.name, said, ran.stderr[-300:])


class Root:
    """An empty root with the C library and a shell, which packages' scripts need. The program runs as nobody there if this process
    may."""

    def __init__(self, folder):
        self.folder = str(folder)
        self.is_jail = (os.geteuid() == 0 and subprocess.run(["chroot", "/", "true"], capture_output=True,
                                                             check=False).returncode == 0)
        needed = {"/bin/sh", *self.libraries("/bin/sh"), *self.libraries(os.path.join(DIST, "mkstrike"))} if self.is_jail else ()
        os.chmod(folder, 0o755)
        for path in sorted(needed):
            os.makedirs(os.path.dirname(self.path(path)), exist_ok=True)
            shutil.copyfile(path, self.path(path))
            os.chmod(self.path(path), 0o755)
        for name in ("info", "updates"):
            os.makedirs(self.path(ADMIN, name))
        with open(self.path(ADMIN, "status"), "w", encoding="utf-8") as file:
            file.write(C_LIBRARY % os.confstr("CS_GNU_LIBC_VERSION").split()[1])
        self.before = self.seen()

    @staticmethod
    def libraries(program):
        """The paths of the libraries that the system would load with a program."""
        return re.findall(r"(/\S+) \(0x", subprocess.run(["ldd", program], capture_output=True, text=True, check=False).stdout)

    def path(self, *parts):
        """A path in the root."""
        return os.path.join(self.folder, *(part.lstrip("/") for part in parts))

    def seen(self):
        """The names of all that is in the root, but for what dpkg keeps."""
        found = set()
        for at, folders, files in os.walk(self.folder):
            inside = os.path.relpath(at, self.folder)
            folders[:] = [it for it in folders if os.path.join(inside, it) != ADMIN]
            found.update(os.path.normpath(os.path.join(inside, it)) for it in [*folders, *files])
        return found

    def dpkg(self, *words):
        """Runs dpkg in the root, as root."""
        if os.geteuid() or not shutil.which("dpkg"):
            pytest.skip("only root can install packages by dpkg")
        return run(["dpkg", "--root=" + self.folder, "--log=/dev/null", *words],
                   env={**os.environ, "PATH": os.environ["PATH"] + ":/usr/sbin:/sbin"})

    def look(self, prefix, libraries, folder):
        """Looks at the program and the library that were installed below a prefix."""
        for inside, name in (("bin/mkstrike", "mkstrike"), (libraries + "/libmkstrike_c.a", "libmkstrike_c.a")):
            assert prebuilt.read(self.path(prefix, inside)) == prebuilt.read(
                os.path.join(DIST, name)), "%s is not as it was packed" % inside
        program = os.path.join("/", prefix, "bin/mkstrike")
        for words in (["--version"], ["help"], ["help", "make"]):
            run([self.path(program), *words])
        words, how = ((["chroot", "--userspec=65534:65534", self.folder, program], None) if self.is_jail
                      else ([self.path(program)], {"env": {}}))
        assert prebuilt.run_stored_request(words, how) is None
        assert os.access(self.path(prefix, "bin/show-bdf"), os.X_OK)
        for page in glob.glob(os.path.join(glob.escape(TOP), "docs/mkstrike*.1")):
            kept = self.path(prefix, "share/man/man1/%s.gz" % os.path.basename(page))
            assert gzip.decompress(prebuilt.read(kept)) == prebuilt.read(page)
        assert not list(self.dead_links(prefix))
        self.look_at_examples(prefix, libraries, folder)

    def look_at_examples(self, prefix, libraries, folder):
        """Builds and runs each example by the command that it shows, with what is installed below the prefix alone."""
        at, include = self.path(prefix, libraries), self.path(prefix, "include")
        env = {**os.environ, "PKG_CONFIG_PATH": at + "/pkgconfig", "LIBRARY_PATH": at, "LD_LIBRARY_PATH": at, "CPATH": include,
               "GOCACHE": str(folder / "go"), "GOFLAGS": "-mod=mod", "CGO_LDFLAGS": "-L" + at, "CGO_CFLAGS": "-I" + include}
        if prefix == "usr":
            env["PKG_CONFIG_SYSROOT_DIR"] = self.folder
        where = next(it for it in ("share/doc/libmkstrike-dev", "share/doc/mkstrike")
                     if os.path.exists(self.path(prefix, it, "examples")))
        shutil.copytree(self.path(prefix, where, "examples"), folder, dirs_exist_ok=True)
        (folder / "font.ttf").write_bytes(sample_font.sample())
        printed, _ = compile_lines.tried(str(folder), str(folder / "font.ttf"), env, False,
                                         lambda it: it.replace("/usr/share", self.path(prefix, "share")))
        assert printed and all(printed.values())

    def dead_links(self, prefix):
        """The links of documents below the prefix that lead to nothing there."""
        for at, _, names in os.walk(self.path(prefix, "share/doc")):
            for name in sorted(it for it in names if it.endswith(".md")):
                links = re.findall(r"\]\(([^):#]+)[)#]", prebuilt.read(os.path.join(at, name)).decode())
                yield from ("%s links to %s" % (name, it) for it in links if not os.path.exists(os.path.join(at, it)))


@pytest.fixture(name="root")
def empty_root(tmp_path):
    """An empty root."""
    (tmp_path / "root").mkdir()
    return Root(tmp_path / "root")


def test_debs(made, root, tmp_path):
    """Installed and removed by dpkg."""
    names = ["mkstrike", "libmkstrike1", "libmkstrike-dev"]
    debs = [one(made, it + "_*_amd64.deb") for it in names]
    root.dpkg("--install", *debs)
    root.look("usr", "lib/x86_64-linux-gnu", tmp_path)
    assert root.dpkg("--verify", *names) == b"", "dpkg does not find each file as it was packed"
    root.dpkg("--purge", *names)
    assert root.seen() == root.before, "something is left, or went too"


def test_tarball(made, root, tmp_path):
    """Unpacked below /usr/local."""
    with tarfile.open(one(made, "*.tar.gz")) as tar:
        for it in tar.getmembers():
            it.name = os.path.join("usr/local", it.name.partition("/")[2])
            tar.extract(it, root.folder)
    root.look("usr/local", "lib", tmp_path)


def look_at_python(folder, due, python=(sys.executable,)):
    """Looks at the package in a folder: it makes the program's strike, tells its version, and imports nothing from elsewhere."""
    env = {"PYTHONPATH": str(folder), "PATH": os.environ["PATH"], "PYTHONDONTWRITEBYTECODE": "1"}
    assert run([*python, "-c", STRIKE], env=env, stdin=None, input=fonts.FIXTURE, stderr=subprocess.DEVNULL) == due
    assert re.match(rb"0\.\d{8}\S* the file looks like an OpenType font with CFF outlines", run([*python, "-c", TOLD], env=env))


def look_at_arm(shared, due, folder):
    """The shared object for 64-bit ARM makes the program's strike."""
    (folder / "font.ttf").write_bytes(fonts.FIXTURE)
    assert other_machine.strike(shared, str(folder / "font.ttf"), str(folder)) == due


@pytest.mark.parametrize("machine", ["x86_64", "aarch64"])
def test_wheel(machine, made, due, tmp_path):
    """The wheel's list has each file, its library fits its name and the header, and it makes the program's strike."""
    with zipfile.ZipFile(one(made, "*_%s.whl" % machine)) as file:
        file.extractall(tmp_path)
        record = file.read(next(it for it in file.namelist() if it.endswith("RECORD"))).decode().split("\n")
        assert sorted(it.split(",")[0] for it in record if it) == sorted(file.namelist())
    shared = str(tmp_path / "mkstrike/libmkstrike.so")
    told = run(["objdump" if machine == "x86_64" else tool("aarch64-linux-gnu-objdump"), "-p", "-T", shared]).decode()
    assert max((tuple(map(int, it.split("."))) for it in re.findall(r"GLIBC_([\d.]+)", told)), default=()) <= (2, 17)
    assert re.findall(r"NEEDED +(\S+)", told) == ["libc.so.6"]
    assert set(re.findall(r" \.text\t.* (\w+)$", told, re.M)) == set(prebuilt.calls_of_header())
    if machine == "x86_64":
        return look_at_python(tmp_path, due)
    look_at_arm(shared, due, tmp_path)
    return look_at_python(tmp_path, due, other_machine.python())


def test_deb_of_python(made, root, due):
    """Installed and removed by dpkg."""
    root.dpkg("--force-depends", "--install", one(made, "python3-mkstrike_*_amd64.deb"))
    look_at_python(root.path(PACKAGES), due)
    run([sys.executable, root.path("usr/bin/strike"), "--help"],
        env={"PYTHONPATH": root.path(PACKAGES), "PYTHONDONTWRITEBYTECODE": "1"})
    root.dpkg("--force-depends", "--purge", "python3-mkstrike")
    assert root.seen() == root.before, "something is left, or went too"


ARM = {"libmkstrike1": "usr/lib/aarch64-linux-gnu/libmkstrike.so.1", "python3-mkstrike": PACKAGES + "/mkstrike/libmkstrike.so"}


@pytest.mark.parametrize("name", ARM)
def test_deb_for_arm(name, made, due, tmp_path):
    """The library of the package for arm64 makes the program's strike."""
    run(["dpkg-deb", "-x", one(made, name + "_*_arm64.deb"), str(tmp_path)])
    look_at_arm(str(tmp_path / ARM[name]), due, tmp_path)


def test_source_distribution(made, due, tmp_path):
    """The source distribution of the Python package has what it needs: pip installs it, and so does `pip install ./python` in a
    checkout."""
    del made  # where that can't be made, this can't
    shutil.copytree(os.path.join(TOP, "python"), tmp_path / "python")
    env = {**os.environ, "MKSTRIKE_TOP": TOP}
    python = python_with(("setuptools", "wheel", "pip"))
    if python is None:
        pytest.skip("no Python has setuptools, wheel and pip (Debian: python3-setuptools, python3-wheel, python3-pip)")
    run([python, "setup.py", "-q", "sdist", "-d", str(tmp_path)], cwd=tmp_path / "python", env=env)
    with tarfile.open(one(tmp_path, "mkstrike-*.tar.gz")) as tar:
        tar.extractall(tmp_path / "sdist")
    source, = (tmp_path / "sdist").iterdir()
    run([python, "-m", "pip", "install", "-q", "--no-index", "--no-build-isolation", "--no-deps", "--target",
         str(tmp_path / "installed"),
         str(source)])
    look_at_python(tmp_path / "installed", due)
    told = run([tmp_path / "installed/bin/strike", "--version"],
               env={"PYTHONPATH": str(tmp_path / "installed"), "PATH": os.environ["PATH"]})
    assert told == b"strike of mkstrike %s\n" % prebuilt.read(os.path.join(TOP, "VERSION")).strip()
