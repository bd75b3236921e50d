"""The file that `-o` replaces: whose the new file is and who may read it, what fails while it is stored, and what killed runs
leave."""
import os
import re
import resource
import signal
import subprocess

import pytest
from making import fonts
from needs import compiled, tool
from runs import memory_file, read_again

MAKE = ["make", "--ppem", "16", "--chars", "41", "-o", "out.bdf"]
OTHER = 65533  # a user who is not root
LEFT = re.compile(r"\.mkstrike-[0-9a-f]{16}")


@pytest.fixture(name="library", scope="module")
def library_that_refuses(tmp_path_factory):
    """The library that refuses and tells."""
    return compiled(os.path.join(os.path.dirname(__file__), "files.c"), tmp_path_factory.mktemp("library") / "files.so", "-shared",
                    "-fPIC")


@pytest.fixture(name="folder")
def folder_with_an_older_file(tmp_path):
    """A folder in which the output is an older file."""
    (tmp_path / "out.bdf").write_bytes(b"old")
    return tmp_path


def run(program, folder, words=tuple(MAKE), **how):
    """Runs the program in a folder on a small font: the status and standard error."""
    done = subprocess.run([*how.pop("before", ()), program, *words], cwd=folder, input=fonts.FIXTURE, stdout=subprocess.DEVNULL,
                          stderr=subprocess.PIPE, timeout=60, **how)
    return done.returncode, done.stderr.decode()


@pytest.mark.parametrize("mode, due", [(0o4777, 0o777), (0o2755, 0o755), (0o6711, 0o711), (0o1666, 0o666), (0o640, 0o640),
                                       (0o600, 0o600), (0o222, 0o222)])
def test_access(mode, due, program, folder):
    """A stranger's file leaves who may read, write and run it, and whose it is. No program runs as another user by what root writes
    over it."""
    if os.geteuid() == 0:
        os.chown(folder / "out.bdf", OTHER, OTHER)
    os.chmod(folder / "out.bdf", mode)
    whose = os.stat(folder / "out.bdf")
    assert run(program, folder)[0] == 0
    found = os.stat(folder / "out.bdf")
    assert found.st_size > 3 and (oct(found.st_mode & 0o7777), found.st_uid, found.st_gid) == (oct(due), whose.st_uid, whose.st_gid)


def test_mode_of_a_new_file(program, tmp_path):
    """A file that replaces none has the mode that the user's mask leaves."""
    assert run(program, tmp_path, umask=0o027)[0] == 0
    assert os.stat(tmp_path / "out.bdf").st_mode & 0o7777 == 0o640


@pytest.mark.parametrize("mode", [0o600, 0o644])
def test_never_wider(mode, program, library, folder):
    """The new file is its owner's alone until it has an owner, and has the older one's mode at its first byte, whatever the user's
    mask is."""
    os.chmod(folder / "out.bdf", mode)
    with memory_file() as told:
        more = {"LD_PRELOAD": library, "TOLD": str(told.fileno())}
        assert run(program, folder, umask=0, env=more, pass_fds=[told.fileno()])[0] == 0
        assert read_again(told).decode().split() == ["600", "%o" % mode]


def test_not_stored(program, library, folder):
    """A file that the system fails to store leaves the older one as it was."""
    status, said = run(program, folder, env={"LD_PRELOAD": library, "REFUSE": "fsync"})
    assert (status, said.split("\n")[1]) == (1, "mkstrike: can't write 'out.bdf': the system failed to store the new file")
    assert os.listdir(folder) == ["out.bdf"] and (folder / "out.bdf").read_bytes() == b"old"


def test_leftovers(program, folder):
    """Files that killed runs left stop no run, also none with their process number, which in a container is 1 each time."""
    if os.geteuid() != 0:
        pytest.skip("only root has process numbers of its own")
    own = [tool("unshare"), "--pid", "--fork", "--kill-child"]
    if subprocess.run([*own, "true"], stderr=subprocess.DEVNULL, check=False).returncode:
        pytest.skip("the system refuses process numbers of its own")
    for number in range(100):
        (folder / (".mkstrike-1-%d" % number)).touch()
    assert run(program, folder, before=own)[0] == 0


def test_name_of_a_leftover(program, folder):
    """Each killed run leaves its file, under another name each time, and the next run is done."""
    def may_write_few_bytes():
        resource.setrlimit(resource.RLIMIT_CORE, (0, 0))
        resource.setrlimit(resource.RLIMIT_FSIZE, (100, resource.RLIM_INFINITY))

    for count in (1, 2, 3):
        ran = subprocess.run([program, *MAKE], cwd=folder, input=fonts.FIXTURE, stdout=subprocess.DEVNULL,
                             stderr=subprocess.DEVNULL, preexec_fn=may_write_few_bytes, check=False)
        assert ran.returncode == -signal.SIGXFSZ and len(left_in(folder)) == count
    assert run(program, folder)[0] == 0 and len(left_in(folder)) == 3


def left_in(folder):
    """The files that are left in a folder beside the output; each has the name that the man page says."""
    names = set(os.listdir(folder)) - {"out.bdf"}
    assert all(LEFT.fullmatch(name) for name in names), names
    return names
