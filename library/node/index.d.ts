/** What a field shows: a number, a text, the names and numbers of flags, or the sets of `list`. Absent fields are left out, with `empty` null. */
export type Value = number | string | null | (number | string)[] | { [field: string]: Value }[];

/** One message. Its fields depend on `pgn` and `description`: docs/MESSAGES.md lists them with their units. */
export interface Message {
  timestamp: string;
  prio: number;
  src: number;
  dst: number;
  pgn: number;
  description: string;
  fields: { [field: string]: Value };
}

/** A CAN frame, with the members that a channel of the package `socketcan` gives. */
export interface CanFrame {
  id: number;
  data: Uint8Array;
  /** Its time since 1970 in UTC: seconds, and the microseconds after them. */
  ts_sec: number;
  ts_usec: number;
  /** Whether the identifier has 29 bits; by default true. */
  ext?: boolean;
  /** Whether it is a remote or an error frame, which is skipped. */
  rtr?: boolean;
  err?: boolean;
}

/** The options of `n2kdec decode`. */
export interface Options {
  /** The table's file; by default that of the installed program. */
  table?: string;
  /** How many lines an incomplete message may wait: 32 to 1,000,000, by default 10,000. */
  window?: number;
  /** Join a message only if its frames come in order, as real devices send them. */
  inOrder?: boolean;
  /** Show absent fields as null. */
  empty?: boolean;
  /** Take each plain line as a whole message. */
  whole?: boolean;
  /** Continue from the state in this file. */
  resume?: string;
  /** Save the state to this file at the end. */
  save?: string;
  /** The program; by default `n2kdec` on the PATH. */
  program?: string;
  /** Gets each line of standard error: reports, and at the end the summary or the fault. */
  onReport?: (line: string) => void;
}

/** A message for `encode`: one that `decode` gave, or its text in JSON, which keeps numbers exact. */
export type ToEncode = string | (Partial<Message> & Pick<Message, "pgn" | "fields">);

/** The options of `n2kdec encode`; the others are those of Options. */
export interface EncodeOptions extends Pick<Options, "table" | "program" | "onReport"> {
  /** Round numbers to the nearest that their fields can show; by default such messages are refused. */
  nearest?: boolean;
}

/** The run failed, with the program's status; the message is its last line, for example "n2kdec: table 3 Key". */
export class N2kdecError extends Error {
  readonly status: number | null;
}

/**
 * Decodes a log: the name of a file, a stream such as the standard output of `candump -L can0`, or anything that gives CAN frames.
 * Each message comes as soon as its last line has been read. If the loop is left, the program is ended.
 * Numbers are those of JavaScript; `lines` gives them exactly.
 */
export function decode(log: string | AsyncIterable<Uint8Array | string | CanFrame>, options?: Options): AsyncGenerator<Message, void, undefined>;

/**
 * Gives the plain line of each message, in order. A refused message is reported, as `line 2 bad B17 value "Depth"`, and has none.
 */
export function encode(messages: Iterable<ToEncode> | AsyncIterable<ToEncode>, options?: EncodeOptions): AsyncGenerator<string, void, undefined>;

/** As `decode`, with each message as its line of JSON. */
export function lines(log: string | AsyncIterable<Uint8Array | string | CanFrame>, options?: Options): AsyncGenerator<string, void, undefined>;
