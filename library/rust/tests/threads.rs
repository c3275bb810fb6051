//! Decoders that share a table and go from thread to thread, by random pieces and frames, saved and continued, print what the program prints.
//! $N2KDEC_RUNS is how many times a log is decoded; $N2KDEC_LOGS is a folder of other logs.
mod common;

use common::{at, of_program};
use n2kdec::{Counts, Decoder, Settings, Table};
use std::collections::VecDeque;
use std::path::PathBuf;
use std::sync::Mutex;
use std::{env, fs, thread};

const TABLE: &str = "examples/sample.toml";
const IN_ORDER: Settings = Settings { window: 10_000, in_order: true, empty: false, whole: false };

/// Numbers that look random, by Knuth's generator.
struct Chance(u64);

impl Chance {
    fn below(&mut self, bound: usize) -> usize {
        self.0 = self.0.wrapping_mul(6364136223846793005).wrapping_add(1442695040888963407);
        (self.0 >> 33) as usize % bound
    }
}

/// A log, its table, and what the program prints and reports of it.
struct Log<'a> {
    bytes: Vec<u8>,
    table: &'a Table,
    wanted: (Vec<String>, Vec<String>),
}

/// The arguments of `frame`, and the length of the line, if a line begins there that `candump -L` prints of a frame.
fn frame_at(rest: &[u8]) -> Option<(u32, Vec<u8>, u64, u32, usize)> {
    let size = rest.iter().position(|it| *it == b'\n')? + 1;
    let line = std::str::from_utf8(&rest[..size]).ok()?;
    let (time, frame) = line.strip_prefix('(')?.strip_suffix('\n')?.split_once(") can0 ")?;
    let ((seconds, micros), (identifier, data)) = (time.split_once('.')?, frame.split_once('#')?);
    let (seconds, micros) = (seconds.parse().ok()?, micros.parse::<u32>().ok()?);
    let identifier = u32::from_str_radix(identifier, 16).ok().filter(|it| *it < 1 << 29)?;
    let byte = |at| u8::from_str_radix(data.get(at..at + 2)?, 16).ok();
    let bytes = (0..data.len()).step_by(2).map(byte).collect::<Option<Vec<u8>>>().filter(|it| it.len() <= 8)?;
    let digits: String = bytes.iter().map(|it| format!("{it:02X}")).collect();
    let is_candump = line == format!("({seconds:010}.{micros:06}) can0 {identifier:08X}#{digits}\n");
    is_candump.then(|| (identifier, bytes, seconds, 1000 * micros, size))
}

/// A decoder on its way through a log.
struct Run<'a> {
    chance: Chance,
    log: &'a Log<'a>,
    decoder: Decoder,
    begin: usize,
    printed: Vec<String>,
    reported: Vec<String>,
}

impl<'a> Run<'a> {
    fn new(seed: usize, logs: &'a [Log<'a>]) -> Self {
        let (chance, log) = (Chance(seed as u64 + 1), &logs[seed % logs.len()]);
        let decoder = log.table.decoder(IN_ORDER).unwrap();
        Run { chance, log, decoder, begin: 0, printed: Vec::new(), reported: Vec::new() }
    }

    fn take(&mut self) {
        self.printed.extend(self.decoder.messages().unwrap());
        self.reported.extend(self.decoder.reports().unwrap());
    }

    /// Feeds a piece or a frame, and says whether there was one. At times it continues from a state.
    fn step(&mut self) -> bool {
        let rest = &self.log.bytes[self.begin..];
        if rest.is_empty() {
            return false;
        }
        let frame = frame_at(rest).filter(|_| self.decoder.waiting().unwrap() == 0 && self.chance.below(2) == 0);
        self.begin += match frame {
            Some((identifier, data, seconds, nanoseconds, size)) => {
                self.decoder.frame(identifier, &data, seconds, nanoseconds).unwrap();
                size
            }
            None => {
                let most = 1 << self.chance.below(10);
                let piece = &rest[..(1 + self.chance.below(most)).min(rest.len())];
                self.decoder.feed(piece).unwrap();
                piece.len()
            }
        };
        self.take();
        if self.chance.below(10) == 0 {
            self.begin -= self.decoder.waiting().unwrap();
            self.decoder = self.log.table.resume(&self.decoder.save().unwrap(), IN_ORDER).unwrap();
        }
        true
    }

    fn finish(mut self) {
        self.decoder.end().unwrap();
        self.take();
        let Counts { lines, messages, bad, unknown, broken, open } = self.decoder.counts().unwrap();
        self.reported.push(format!("lines {lines} messages {messages} bad {bad} unknown {unknown} broken {broken} open {open}"));
        assert!((self.printed, self.reported) == self.log.wanted, "a run differs from the program");
    }
}

fn threads() -> usize {
    fs::read_dir("/proc/self/task").unwrap().count()
}

#[test]
fn any_thread_may_call_and_none_is_made() {
    let names = match env::var("N2KDEC_LOGS") {
        Ok(folder) => fs::read_dir(folder).unwrap().map(|it| it.unwrap().path()).filter(|it| it.extension() == Some("log".as_ref())).collect(),
        Err(_) => ["examples/trip.log", "examples/two-sources.log", "examples/repeat-breaks.log", "tests/logs/messages.log"].map(at).to_vec(),
    };
    let table = Table::read(&fs::read(at(TABLE)).unwrap()).unwrap();
    let log = |it: PathBuf| Log { bytes: fs::read(&it).unwrap(), table: &table, wanted: of_program(&["--in-order"], TABLE, &it) };
    let logs: Vec<_> = names.into_iter().map(log).collect();
    let runs = env::var("N2KDEC_RUNS").map_or(12, |it| it.parse().unwrap());
    let (before, next) = (threads(), Mutex::new(0..runs));
    let idle: Mutex<VecDeque<Run>> = Mutex::new((0..8).filter_map(|_| next.lock().unwrap().next()).map(|it| Run::new(it, &logs)).collect());
    assert_eq!(threads(), before);
    thread::scope(|scope| {
        for _ in 0..4 {
            scope.spawn(|| loop {
                let taken = idle.lock().unwrap().pop_front();
                let mut run = match taken {
                    Some(run) => run,
                    None => return,
                };
                if run.step() {
                    idle.lock().unwrap().push_back(run);
                    continue;
                }
                run.finish();
                if let Some(seed) = next.lock().unwrap().next() {
                    idle.lock().unwrap().push_back(Run::new(seed, &logs));
                }
            });
        }
    });
    assert!(next.into_inner().unwrap().is_empty() && idle.into_inner().unwrap().is_empty());
}
