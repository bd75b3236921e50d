// Runs the program, dist/program.wasm, which asks a system for its arguments, streams and files as it asks the C library on Linux.
// `system` is Node's fs with `isatty` and `randomFillSync`, or has as much of it as a run needs: what it lacks fails.

// Linux's numbers of errors, by Node's names; any other is EIO.
const ERRORS = { EPERM: 1, ENOENT: 2, EINTR: 4, EIO: 5, EBADF: 9, EAGAIN: 11, EACCES: 13, EEXIST: 17, ENOTDIR: 20, EISDIR: 21, EINVAL: 22, ENOSPC: 28,
  EROFS: 30, EPIPE: 32, ENAMETOOLONG: 36, ELOOP: 40 };
// Linux's bits, by which the program opens files and asks for what is known of one.
const FLAGS = { O_WRONLY: 0o1, O_RDWR: 0o2, O_CREAT: 0o100, O_EXCL: 0o200, O_TRUNC: 0o1000, O_APPEND: 0o2000 };
const AT_SYMLINK_NOFOLLOW = 0x100, AT_EMPTY_PATH = 0x1000;
const MOST_PATH = 4096;

// Runs the compiled module with the words after the program's name. Returns the status.
export function run(module, words, system) {
  const args = ['mkstrike', ...words].map((it) => new TextEncoder().encode(it)), files = [0, 1, 2];
  let calls = null, errno = 0, late = null; // `late` is a fault of a close
  const bytes = (at, size) => new Uint8Array(calls.memory.buffer, Number(at), Number(size));
  const view = (at) => new DataView(calls.memory.buffer, Number(at));
  const path = (at) => new TextDecoder().decode(bytes(at, MOST_PATH).subarray(0, bytes(at, MOST_PATH).indexOf(0)));
  // Copies a text to `at` if it fits, and returns its length; -2 if it does not fit.
  const put = (text, at, size) => {
    bytes(at, size).set(text.subarray(0, Number(size)));
    return text.length > size ? -2 : text.length;
  };
  // What the work returns; or -1, and errno.
  const tried = (work) => {
    try {
      return work();
    } catch (fault) {
      if (!fault.code) throw fault;
      errno = ERRORS[fault.code] ?? ERRORS.EIO;
      return -1;
    }
  };
  const done = (work) => tried(() => (work(), 0));
  const env = {
    rattle_arg_count: () => BigInt(args.length),
    rattle_arg: (at, to, size) => BigInt(at < args.length ? put(args[at], to, size) : -1),
    rattle_errno: () => errno,
    rattle_set_errno: (number) => (errno = number),
    getentropy: (at, size) => done(() => system.randomFillSync(bytes(at, size))),
    isatty: (file) => Number(system.isatty(files[file])),
    read: (file, at, size) => BigInt(tried(() => system.readSync(files[file], bytes(at, size)))),
    write: (file, at, size) => BigInt(tried(() => system.writeSync(files[file], bytes(at, size)))),
    __write: (...given) => env.write(...given),
    open: (name, flags, rest) => tried(() => {
      const own = Object.keys(FLAGS).reduce((all, it) => (flags & FLAGS[it] ? all | system.constants[it] : all), 0);
      return files.push(system.openSync(path(name), own, flags & FLAGS.O_CREAT ? view(rest).getUint32(0, true) : undefined)) - 1;
    }),
    fcntl: (file) => files.push(files[file]) - 1, // another number for the same file is all that it asks for
    close: (file) => done(() => {
      const [own] = files.splice(file, 1, undefined);
      try {
        if (!files.includes(own)) system.closeSync(own);
      } catch (fault) {
        throw (late = fault);
      }
    }),
    statx: (file, name, flags, mask, to) => done(() => {
      const how = { bigint: true }, isLink = flags & AT_SYMLINK_NOFOLLOW;
      const found = flags & AT_EMPTY_PATH ? system.fstatSync(files[file], how) : system[isLink ? 'lstatSync' : 'statSync'](path(name), how);
      view(to).setUint32(20, Number(found.uid), true);
      view(to).setUint32(24, Number(found.gid), true);
      view(to).setUint16(28, Number(found.mode), true);
      view(to).setBigUint64(32, found.ino, true);
      view(to).setBigUint64(40, found.size, true);
      view(to).setBigUint64(136, found.dev, true);
    }),
    readlink: (name, to, size) => BigInt(tried(() => put(new TextEncoder().encode(system.readlinkSync(path(name))), to, size))),
    fchmod: (file, mode) => done(() => system.fchmodSync(files[file], mode)),
    fchown: (file, owner, group) => done(() => system.fchownSync(files[file], owner >>> 0, group >>> 0)),
    fsync: (file) => done(() => system.fsyncSync(files[file])),
    // no run calls these; they belong to files as the program's library has them
    fdatasync: () => -1,
    ftruncate: () => -1,
    flock: () => -1,
    // a file that could not be closed gets no name: the program itself does not ask whether it was
    rename: (from, to) => done(() => {
      if (late) throw late;
      system.renameSync(path(from), path(to));
    }),
    unlink: (name) => done(() => system.unlinkSync(path(name))),
    __sysv_signal: () => 0n, // a closed pipe ends nothing here: the write fails
  };
  calls = new WebAssembly.Instance(module, { env }).exports;
  return calls.main(0, 0n);
}

const absent = () => {
  throw Object.assign(new Error('there are no files'), { code: 'ENOENT' });
};

// Runs it in memory, with the font as its standard input and without files. Returns the status, what it wrote to standard output, and its
// lines.
export function runInMemory(module, words, font) {
  const written = [null, [], []];
  let at = 0;
  const status = run(module, words, {
    constants: {},
    isatty: () => false,
    randomFillSync: absent,
    openSync: absent,
    statSync: absent,
    lstatSync: absent,
    readlinkSync: absent,
    readSync: (_, to) => {
      const part = font.subarray(at, at + to.length);
      to.set(part);
      at += part.length;
      return part.length;
    },
    writeSync: (file, part) => written[file].push(part.slice()) && part.length,
  });
  const [output, lines] = written.slice(1).map((parts) => {
    const all = new Uint8Array(parts.reduce((sum, it) => sum + it.length, 0));
    parts.reduce((from, it) => (all.set(it, from), from + it.length), 0);
    return all;
  });
  return { status, output, lines: new TextDecoder().decode(lines) };
}
