"""Files that are written: whole, by many at once, never over what was read."""
import concurrent.futures
import errno
import os
import re
import stat
import subprocess
import sys
import threading

import pytest
from needs import tool
from shared import LIBERATION, MONO, SANS, needs_font, strike_by_command

import mkstrike
from mkstrike import formats

pytestmark = needs_font(SANS, MONO, LIBERATION)


def test_many_at_once(tmp_path):
    """Eight threads that save to one path all succeed, and a reader sees whole files alone."""
    strikes = [mkstrike.Font(SANS).strike(12 + k, "ascii") for k in range(8)]
    path = tmp_path / "a.bdf"
    strikes[0].save(path)
    texts, seen, is_done = {it.text for it in strikes}, set(), threading.Event()

    def read():
        while not is_done.is_set():
            seen.add(path.read_bytes())

    reader = threading.Thread(target=read)
    reader.start()
    try:
        with concurrent.futures.ThreadPoolExecutor(8) as pool:
            list(pool.map(lambda k: strikes[k % 8].save(path), range(600)))
    finally:
        is_done.set()
        reader.join()
    assert seen <= texts and path.read_bytes() in texts and os.listdir(tmp_path) == ["a.bdf"]


def test_what_is_no_file(tmp_path):
    """A device and a pipe are written to, and stay what they are; so does a link, whose file is replaced."""
    strike = mkstrike.Font(SANS).strike(16, "ascii")
    pipe = tmp_path / "pipe"
    os.mkfifo(pipe)
    end = os.open(pipe, os.O_RDWR | os.O_NONBLOCK)  # the pipe holds the text, so nobody waits
    strike.save(pipe, "bdf")
    assert stat.S_ISFIFO(os.stat(pipe).st_mode) and len(strike.text) < 1 << 16
    assert os.read(end, 1 << 17) == strike.text
    os.close(end)
    os.symlink("/dev/null", tmp_path / "device.bdf")
    strike.save(tmp_path / "device.bdf")
    assert stat.S_ISCHR(os.stat("/dev/null").st_mode) and os.readlink(tmp_path / "device.bdf") == "/dev/null"
    (tmp_path / "file.bdf").write_bytes(b"old")
    os.symlink("file.bdf", tmp_path / "link.bdf")
    strike.save(tmp_path / "link.bdf")
    assert (tmp_path / "file.bdf").read_bytes() == strike.text and os.path.islink(tmp_path / "link.bdf")
    code = "import mkstrike; mkstrike.Font(%r).strike(16, 'ascii').save('/dev/stdout', 'bdf')" % SANS
    assert subprocess.run([sys.executable, "-c", code], capture_output=True).stdout == strike.text
    with pytest.raises(OSError):
        strike.save(tmp_path, "bdf")


def full(*_, **__):
    """A call of the system that fails."""
    raise OSError(errno.ENOSPC, "the disk is full")


@pytest.mark.parametrize("call, instead", [("replace", full), ("fsync", full), ("fsync", os.close), ("open", full)])
def test_no_new_file_stays(tmp_path, monkeypatch, call, instead):
    """A fault leaves the older file, and no other, and the error has the name as it was given. A disk may tell that it is full only
    at `fsync`, or when the file is closed: a file that `fsync` closes can't be closed again. A name that can't be opened is left
    alone."""
    strike = mkstrike.Font(SANS).strike(16, "ascii")
    (tmp_path / "a.bdf").write_bytes(b"old")
    os.symlink("a.bdf", tmp_path / "link.bdf")
    with monkeypatch.context() as patched:
        patched.setattr(os, call, instead)
        with pytest.raises(OSError) as fault:
            strike.save(tmp_path / "link.bdf")
    assert call == "open" or fault.value.filename == str(tmp_path / "link.bdf")
    assert (tmp_path / "a.bdf").read_bytes() == b"old" and sorted(os.listdir(tmp_path)) == ["a.bdf", "link.bdf"]


def test_no_bytes(tmp_path):
    """A fault of the program leaves no file either."""
    with pytest.raises(TypeError):
        formats.write(str(tmp_path / "a.bdf"), "no bytes")
    assert os.listdir(tmp_path) == []


def test_no_folder(tmp_path):
    """The error names the file as it was given, not the one that is made first."""
    with pytest.raises(FileNotFoundError) as fault:
        formats.write("nodir/x.bdf", b"")
    assert fault.value.filename == "nodir/x.bdf" and str(fault.value).endswith(": 'nodir/x.bdf'")


@pytest.mark.parametrize("mode, kept", [(0o600, 0o600), (0o4777, 0o777), (0o2770, 0o770), (0o7711, 0o711)])
def test_permissions(tmp_path, monkeypatch, mode, kept):
    """The new file has the permissions of the old one, whatever the umask, and is never setuid. While it is empty only its owner
    can open it."""
    path, seen, chmod = tmp_path / "a.bdf", [], os.fchmod
    path.write_bytes(b"old")
    path.chmod(mode)

    def seen_chmod(file, bits):
        seen.append((os.fstat(file).st_size, stat.S_IMODE(os.fstat(file).st_mode)))
        chmod(file, bits)

    monkeypatch.setattr(os, "fchmod", seen_chmod)
    umask = os.umask(0o022)
    try:
        formats.write(str(path), b"new")
    finally:
        os.umask(umask)
    assert stat.S_IMODE(os.stat(path).st_mode) == kept and path.read_bytes() == b"new" and seen == [(0, kept & 0o700)]


def test_owner(tmp_path, monkeypatch):
    """Root keeps the owner and the group of a file; who may not keeps its permissions."""
    path, asked = tmp_path / "a.bdf", []
    path.write_bytes(b"old")
    path.chmod(0o600)
    if os.geteuid() == 0:
        os.chown(path, 65533, 65532)
        formats.write(str(path), b"new")
        old = os.stat(path)
        assert (old.st_uid, old.st_gid, stat.S_IMODE(old.st_mode)) == (65533, 65532, 0o600)
    old = os.stat(path)

    def refuse(_, owner, group):
        asked.append((owner, group))
        raise PermissionError(errno.EPERM, "not permitted")

    monkeypatch.setattr(os, "fchown", refuse)
    formats.write(str(path), b"newer")
    assert path.read_bytes() == b"newer" and stat.S_IMODE(os.stat(path).st_mode) == 0o600
    assert sorted(asked) == [(-1, old.st_gid), (old.st_uid, -1)]


@pytest.mark.parametrize("is_there", [True, False])
def test_planted_meanwhile(tmp_path, monkeypatch, is_there):
    """A link that takes the place of a stranger's file, or of none, after it was opened: what it leads to never gets the
    stranger's owner and mode. Nothing is replaced if that goes on."""
    path, victim, realpath, is_back = tmp_path / "a.bdf", tmp_path / "victim", os.path.realpath, False
    victim.write_bytes(b"its own")
    victim.chmod(0o600)

    def file_of_a_stranger():
        path.unlink(missing_ok=True)
        if is_there:
            path.write_bytes(b"a stranger's")
            path.chmod(0o666)

    def planted(it):
        path.unlink(missing_ok=True)
        path.symlink_to("victim")
        found = realpath(it)
        if is_back:
            file_of_a_stranger()
        return found

    file_of_a_stranger()
    monkeypatch.setattr(os.path, "realpath", planted)
    formats.write(str(path), b"new")
    assert (victim.read_bytes(), stat.S_IMODE(victim.stat().st_mode), path.is_symlink()) == (b"new", 0o600, True)
    is_back = True
    file_of_a_stranger()
    with pytest.raises(OSError, match="others replace it all the time"):
        formats.write(str(path), b"newer")
    assert victim.read_bytes() == b"new" and sorted(os.listdir(tmp_path)) == ["a.bdf"] * is_there + ["victim"]


def test_system_calls(tmp_path):
    """The name is opened as it was given, so that the kernel can refuse a planted link. All is on the disk before the file gets
    it."""
    (tmp_path / "a.bdf").write_bytes(b"old")
    os.symlink("a.bdf", tmp_path / "link.bdf")
    words = [tool("strace"), "-e", "trace=openat,fchmod,write,fsync,close,?rename,?renameat,?renameat2", "-o", "calls"]
    code = "from mkstrike import formats; formats.write('link.bdf', b'new')"
    ran = subprocess.run([*words, sys.executable, "-c", code], cwd=tmp_path, capture_output=True)
    if b"ptrace" in ran.stderr:
        pytest.skip("strace may not watch programs here")
    assert ran.returncode == 0, ran.stderr
    calls = (tmp_path / "calls").read_text()
    wanted = [r'openat\(AT_FDCWD, "link.bdf", O_WRONLY\|O_CLOEXEC\) += (\d+)',
              r'openat\(AT_FDCWD, "[^"]*", [A-Z_|]*\|O_DIRECTORY\) += (\d+)',
              r'openat\(\2, "\.mkstrike-[0-9a-f]{16}", O_WRONLY\|O_CREAT\|O_EXCL[^=]*= (\d+)',
              r"fchmod\(\3, ", r'write\(\3, "new", 3\)', r"fsync\(\3\)", r"close\(\3\)", r'rename[^\n]* \2, "a\.bdf"',
              r"close\(\2\)", r"close\(\1\)"]
    assert re.search(".*\n".join(wanted), calls[calls.index("link.bdf") - 20:]), calls[-1000:]


@pytest.mark.parametrize("words",
                         [["old-16.bdf", "--cell", "8x16", "--clip"], ["--font", "./old-16.bdf", "--font", MONO, "--chars", "41"],
                                   ["--font", MONO, "--name", "old", "--chars", "./old-16.bdf"],
                          ["linked.bdf", "--out", "out"],
                                   [SANS, "--name", "old", "--chars", "old-16.bdf"],
                                   [SANS, "--name", "old", "--chars", "A,./old-16.bdf"]])
def test_inputs_stay(tmp_path, words):
    """No output replaces what is read."""
    strike = mkstrike.Font(MONO).strike(16, "ascii,box")
    strike.save(tmp_path / "old-16.bdf")
    (tmp_path / "out").mkdir()
    os.symlink("old-16.bdf", tmp_path / "linked.bdf")
    os.symlink("../old-16.bdf", tmp_path / "out/linked.bdf")
    _, said = strike_by_command(tmp_path, *words, status=1)
    assert "is read here, and would be replaced: give another folder by --out" in said
    assert (tmp_path / "old-16.bdf").read_bytes() == strike.text and len(os.listdir(tmp_path)) == 3
    if "--out" not in words:
        strike_by_command(tmp_path, *words, "--out", "other")


def test_one_name(tmp_path):
    """Two fonts never share a file: by one --name, by equal names, or by a strike of a font's name."""
    assert "files of different fonts would have one name" in strike_by_command(tmp_path, SANS, MONO, "--name", "x", status=2)[1]
    mkstrike.Font(MONO).strike(16, "ascii").save(tmp_path / "DejaVuSans-16.bdf")
    _, said = strike_by_command(tmp_path, "DejaVuSans-16.bdf", SANS, "--chars", "ascii", "--out", "out", status=1)
    assert "out/DejaVuSans-16.bdf would be replaced by a second strike" in said
    assert len(mkstrike.Strike.open(tmp_path / "out/DejaVuSans-16.bdf")) == 95
