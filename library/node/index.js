"use strict";

const { spawn } = require("node:child_process");
const { existsSync } = require("node:fs");
const { homedir } = require("node:os");
const { join } = require("node:path");
const { pipeline } = require("node:stream/promises");

/** The run failed: the message is the program's last line, for example "n2kdec: table 3 Key". */
class N2kdecError extends Error {
  constructor(text, status) {
    super(text);
    this.name = "N2kdecError";
    this.status = status;
  }
}

/** The table of the installed program. */
function installedTable() {
  const places = [join(homedir(), ".local/share/n2kdec/n2k.toml"), "/usr/local/share/n2kdec/n2k.toml", "/usr/share/n2kdec/n2k.toml"];
  const found = places.find((place) => existsSync(place));
  if (!found) throw new N2kdecError(`no table is installed (${places.join(", ")}): give one as "table"`, 2);
  return found;
}

/** The arguments of `n2kdec decode` for these options. */
function argumentsOf(log, { table = installedTable(), window, inOrder, empty, whole, resume, save }) {
  const words = ["decode", "--table", table];
  if (window !== undefined) words.push("--window", String(window));
  if (inOrder) words.push("--in-order");
  if (empty) words.push("--empty");
  if (whole) words.push("--whole");
  if (resume !== undefined) words.push("--resume", resume);
  if (save !== undefined) words.push("--save", save);
  return typeof log === "string" ? [...words, "--", log] : words;
}

/** The line that `candump -L` prints of a frame. What it prints of a remote or an error frame is skipped. */
function lineOf({ id, data, ts_sec, ts_usec, ext = true, rtr = false, err = false }) {
  const hex = (number, size) => number.toString(16).toUpperCase().padStart(size, "0");
  const identifier = err ? hex(0x20000000 + id, 8) : hex(id, ext ? 8 : 3);
  const time = `${String(ts_sec).padStart(10, "0")}.${String(ts_usec).padStart(6, "0")}`;
  return `(${time}) can0 ${identifier}#${rtr ? "R" : Array.from(data, (byte) => hex(byte, 2)).join("")}\n`;
}

/** The text of a log that may contain frames. */
async function* textsOf(log) {
  for await (const it of log) yield typeof it === "string" || it instanceof Uint8Array ? it : lineOf(it);
}

/** The lines of JSON of messages. Within JSON a tab is white space where a line feed is. */
async function* jsonOf(messages) {
  for await (const it of messages) yield `${typeof it === "string" ? it.replace(/[\r\n]/g, "\t") : JSON.stringify(it)}\n`;
}

/** Gives the lines of a stream of text as they come. */
async function* linesOf(stream) {
  let rest = "";
  stream.setEncoding("utf8");
  for await (const piece of stream) {
    const parts = (rest + piece).split("\n");
    rest = parts.pop();
    yield* parts;
  }
  if (rest) yield rest;
}

/** Gives the lines that the program prints for an input, which `toText` turns into text, or without one for a file that it reads. */
async function* printed(words, input, toText, options) {
  const child = spawn(options.program ?? "n2kdec", words, { stdio: [input === null ? "ignore" : "pipe", "pipe", "pipe"] });
  const ended = new Promise((resolve, reject) => {
    child.on("error", reject);
    child.on("close", (status, signal) => resolve({ status, signal }));
  });
  // Each is awaited below; until then a refusal is nobody's.
  ended.catch(() => {});
  let last = "";
  const reports = (async () => {
    for await (const line of linesOf(child.stderr)) {
      last = line;
      options.onReport?.(line);
    }
  })();
  reports.catch(() => child.kill());
  // If the program ends first, its own fault says more than the broken pipe. If the input fails, what came before is printed.
  let fault;
  if (input !== null) {
    pipeline(input, toText, child.stdin).catch((error) => {
      if (error.code !== "EPIPE" && error.code !== "ERR_STREAM_PREMATURE_CLOSE") fault = error;
    });
  }
  let isWhole = false;
  try {
    yield* linesOf(child.stdout);
    isWhole = true;
  } finally {
    // The caller has left its loop.
    if (!isWhole) child.kill();
  }
  const { status, signal } = await ended;
  await reports;
  if (fault) throw fault;
  if (signal || status > 1) throw new N2kdecError(signal ? `n2kdec was ended by ${signal}` : last, status);
}

async function* lines(log, options = {}) {
  yield* printed(argumentsOf(log, options), typeof log === "string" ? null : log, textsOf, options);
}

async function* decode(log, options = {}) {
  for await (const line of lines(log, options)) yield JSON.parse(line);
}

async function* encode(messages, options = {}) {
  const { table = installedTable(), nearest } = options;
  yield* printed(["encode", "--table", table, ...(nearest ? ["--nearest"] : [])], messages, jsonOf, options);
}

module.exports = { decode, encode, lines, N2kdecError };
