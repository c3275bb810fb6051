// Compares the package with the program, which $N2KDEC_PROGRAM names: node --test library/node/test.js
"use strict";

const assert = require("node:assert");
const { spawnSync } = require("node:child_process");
const { createReadStream, readFileSync } = require("node:fs");
const { join } = require("node:path");
const { Readable } = require("node:stream");
const { test } = require("node:test");
const { decode, encode, lines, N2kdecError } = require("./index.js");

const root = join(__dirname, "../..");
const program = process.env.N2KDEC_PROGRAM;
const table = join(root, "tables/n2k.toml");
const trip = join(root, "examples/trip.log");

const all = async (messages) => {
  const found = [];
  for await (const it of messages) found.push(it);
  return found;
};
const ofProgram = (...words) => {
  const { stdout, stderr } = spawnSync(program, ["decode", "--table", table, ...words], { encoding: "utf8" });
  return { printed: stdout.split("\n").slice(0, -1), reported: stderr.split("\n").slice(0, -1) };
};

test("lines and reports are those of the program", async () => {
  for (const name of ["examples/trip.log", "examples/ten-lines-eight-bad.log", "tests/logs/messages.log"]) {
    const log = join(root, name);
    const { printed, reported } = ofProgram("--in-order", "--empty", "--window", "500", log);
    for (const source of [log, createReadStream(log, { highWaterMark: 7 })]) {
      const reports = [];
      const options = { table, program, inOrder: true, empty: true, window: 500, onReport: (line) => reports.push(line) };
      assert.deepStrictEqual(await all(lines(source, options)), printed);
      assert.deepStrictEqual(reports, reported);
    }
  }
});

test("frames print what their lines print", async () => {
  const frame = /^\((\d+)\.(\d{6})\) can0 ([0-9A-F]{8})#([0-9A-F]*)$/;
  const log = readFileSync(trip, "utf8").split("\n").slice(0, -1).map((line) => {
    const [, seconds, micros, id, data] = frame.exec(line) ?? [];
    return id ? { id: parseInt(id, 16), data: Buffer.from(data, "hex"), ts_sec: Number(seconds), ts_usec: Number(micros) } : `${line}\n`;
  });
  const [first] = log.filter((it) => typeof it !== "string");
  const others = [{ ...first, ext: false, id: 0x123 }, { ...first, rtr: true }, { ...first, err: true, id: 4 }];
  const reports = [];
  const printed = await all(lines(Readable.from([...others, ...log]), { table, program, onReport: (line) => reports.push(line) }));
  assert.deepStrictEqual(printed, ofProgram(trip).printed);
  assert.deepStrictEqual(reports, ["lines 123 messages 48 bad 0 unknown 1 broken 0 open 0"]);
});

test("messages are objects", async () => {
  const depths = (await all(decode(trip, { table, program, inOrder: true }))).filter((it) => it.pgn === 128267);
  assert.deepStrictEqual(depths.map((it) => [it.timestamp, it.fields.Depth]), [["2025-07-04T06:00:00.160Z", 3.42], ["2025-07-04T06:00:00.660Z", 4.22]]);
});

test("messages become plain lines or are reported", async () => {
  const reports = [];
  const onReport = (line) => reports.push(line);
  const messages = [{ pgn: 127250, fields: { Heading: 1.5708, Reference: "Magnetic" } }, { pgn: 128267, fields: { Depth: 3.401 } }, '{"pgn":128267,"src":5,"fields":{"SID":1,"Depth":3.40,"Offset":-0.5}}'];
  const [heading, depth] = ["1970-01-01T00:00:00.000Z,6,127250,0,255,8,ff,5c,3d,ff,7f,ff,7f,fd", "1970-01-01T00:00:00.000Z,6,128267,5,255,8,01,54,01,00,00,0c,fe,ff"];
  assert.deepStrictEqual(await all(encode(messages, { table, program, onReport })), [heading, depth]);
  assert.deepStrictEqual(reports, ['line 2 bad B17 value "Depth"', "lines 3 messages 2 bad 1 unknown 0 broken 0 open 0"]);
  assert.deepStrictEqual(await all(encode(messages.slice(1, 2), { table, program, nearest: true })), ["1970-01-01T00:00:00.000Z,6,128267,0,255,8,ff,54,01,00,00,ff,7f,ff"]);
  const decoded = await all(decode(trip, { table, program }));
  assert.deepStrictEqual(await all(decode(Readable.from(encode(decoded, { table, program })).map((line) => `${line}\n`), { table, program, whole: true })), decoded);
  await assert.rejects(all(encode([{ pgn: 1n, fields: {} }], { table, program })), TypeError);
});

test("a fault is an error with the words of the program", async () => {
  const refused = (status, message) => (error) => error instanceof N2kdecError && error.status === status && error.message === message;
  await assert.rejects(all(decode(trip, { table: trip, program })), refused(2, "n2kdec: table 1 NotToml"));
  await assert.rejects(all(decode(Readable.from([readFileSync(trip)]), { table: trip, program })), refused(2, "n2kdec: table 1 NotToml"));
  await assert.rejects(all(decode(trip, { table, program: "/no/such/program" })), { code: "ENOENT" });
});

test("a log that fails gives what came before, and its own error", async () => {
  const log = Readable.from((async function* () {
    yield "(1751608800.114000) can0 09F80103#0123456789ABCDEF\n";
    throw new Error("unplugged");
  })());
  const found = [];
  await assert.rejects(async () => {
    for await (const it of decode(log, { table, program })) found.push(it.pgn);
  }, { message: "unplugged" });
  assert.deepStrictEqual(found, [129025]);
});

test("a loop that is left ends the program", async () => {
  const live = new Readable({ read() {} });
  live.push(readFileSync(trip));
  for await (const it of decode(live, { table, program, inOrder: true })) {
    assert.strictEqual(it.pgn, 129025);
    break;
  }
  // Node ends by itself only if no program is left.
});
