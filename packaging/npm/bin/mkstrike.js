#!/usr/bin/env node
// The command mkstrike: the program's WebAssembly module, with the arguments, the files and the streams of this process.
import { randomFillSync } from 'node:crypto';
import * as fs from 'node:fs';
import process from 'node:process';
import { isatty } from 'node:tty';
import { setFlagsFromString } from 'node:v8';
import { run } from '../program.js';

const PAUSE = 5; // milliseconds between two tries of a stream that does not wait

// Reads or writes. A stream that does not wait is tried again, and one that has ended on Windows gives nothing.
const waiting = (call) => (...given) => {
  for (;;) {
    try {
      return call(...given);
    } catch (fault) {
      if (fault.code === 'EOF') return 0;
      if (fault.code !== 'EAGAIN') throw fault;
      Atomics.wait(new Int32Array(new SharedArrayBuffer(4)), 0, 0, PAUSE);
    }
  }
};

// V8's optimising compiler pays for itself in long runs alone. By default it begins during the first strike.
if (parseInt(process.versions.node, 10) <= 24) setFlagsFromString('--wasm-tiering-budget=100000000');
const module = new WebAssembly.Module(fs.readFileSync(new URL('../program.wasm', import.meta.url)));
const system = { ...fs, readSync: waiting(fs.readSync), writeSync: waiting(fs.writeSync), isatty, randomFillSync };
process.exitCode = run(module, process.argv.slice(2), system);
