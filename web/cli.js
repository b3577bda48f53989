#!/usr/bin/env node
/* The second checker at the command line:

     node cli.js PUZZLE LIST CERTIFICATE
     node cli.js                            the three texts joined, from standard input

   It answers as `edgematch check` does: the same line, on standard output or, where a text or a file has a fault, on
   standard error, and the same exit status. The checker itself is check.js. */

"use strict";

const fs = require("fs");
const { edgematchCheck, edgematchCut } = require("./check.js");

const NAMES = ["puzzle", "list", "certificate"];
const MOST_BYTES = 1073741824;

// A fault of a file: a line, as the checker's faults are.
const fault = (line) => ({ line, status: 2 });

// All bytes of an open file, which may be a pipe.
function bytesOf(file, name) {
  let bytes = new Uint8Array(Math.min(fs.fstatSync(file).size, MOST_BYTES) + 1), filled = 0;
  for (;;) {
    const count = fs.readSync(file, bytes, filled, bytes.length - filled, null);
    if (count === 0) return bytes.subarray(0, filled);
    filled += count;
    if (filled > MOST_BYTES) throw fault(`too long ${name}`);
    if (filled < bytes.length) continue;
    const larger = new Uint8Array(Math.min(Math.max(2 * filled, 65536), MOST_BYTES + 1));
    larger.set(bytes);
    bytes = larger;
  }
}

// What a call comes to; where the system refuses it, the document can't be read.
function orCannotRead(name, call) {
  try {
    return call();
  } catch (why) {
    throw why.line === undefined ? fault(`cannot read ${name}`) : why;
  }
}

// A file, opened; a folder can't be read.
function opened(path) {
  const file = fs.openSync(path);
  if (fs.fstatSync(file).isDirectory()) throw new Error("a folder");
  return file;
}

// The bytes of the three texts. All files are opened before one is read.
function textsOf(paths) {
  if (paths.length === 0) return edgematchCut(orCannotRead("input", () => bytesOf(0, "input")));
  const files = paths.map((path, i) => orCannotRead(NAMES[i], () => opened(path)));
  return files.map((file, i) => orCannotRead(NAMES[i], () => bytesOf(file, NAMES[i])));
}

function answerOf(paths) {
  try {
    return edgematchCheck(...textsOf(paths));
  } catch (why) {
    if (why.line === undefined) throw why;
    return why;
  }
}

// Writes a line to standard output, 1, or standard error, 2: whether that could be done.
function isWritten(stream, line) {
  try {
    fs.writeSync(stream, `${line}\n`);
    return true;
  } catch {
    return false;
  }
}

// Prints the answer, and gives the exit status. An answer that can't be written is a fault: status 1 is for `refused`.
function main(paths) {
  if (paths.length !== 0 && paths.length !== 3) {
    isWritten(2, "usage: node cli.js PUZZLE LIST CERTIFICATE, or node cli.js with the three joined");
    return 2;
  }
  const { line, status } = answerOf(paths);
  if (isWritten(status === 2 ? 2 : 1, line)) return status;
  isWritten(2, "cannot write");
  return 2;
}

process.exitCode = main(process.argv.slice(2));
