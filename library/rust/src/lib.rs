//! Decodes recorded NMEA 2000 traffic: the bytes of a log go in, each message comes out as a line of JSON. An [`Encoder`] turns
//! such a line into a message again.
//!
//! The work is done by libn2kdec, whose `n2kdec.h` has the calls and the meaning of each status.
#![warn(missing_docs)]

mod raw;

use std::fmt;
use std::io::{self, Read};
use std::sync::{Mutex, PoisonError};

/// How to read a log: the options of `n2kdec decode`.
#[derive(Clone, Copy, Debug, PartialEq, Eq)]
pub struct Settings {
    /// How many lines an incomplete message may wait: 32 to 1,000,000.
    pub window: u32,
    /// Join a message only if its frames come in order, as real devices send them.
    pub in_order: bool,
    /// Show absent fields as null.
    pub empty: bool,
    /// Take each plain line as a whole message.
    pub whole: bool,
}

impl Default for Settings {
    /// Those of the program: a window of 10,000 lines, the rest false.
    fn default() -> Self {
        Settings { window: 10_000, in_order: false, empty: false, whole: false }
    }
}

/// The counts of the summary, for all lines that were taken, including those before a saved state.
#[derive(Clone, Copy, Debug, PartialEq, Eq)]
#[allow(missing_docs)]
pub struct Counts {
    pub lines: u64,
    pub messages: u64,
    pub bad: u64,
    pub unknown: u64,
    pub broken: u64,
    pub open: u64,
}

/// The table that the library contains, for [`Decoder::new`].
pub fn own_table() -> &'static [u8] {
    raw::own_table()
}

/// Why a call was refused, or why the log could not be read.
#[derive(Debug)]
pub enum Error {
    /// A status of n2kdec.h, with its text, for example 103, "table 3 Key".
    Refused(i32, String),
    /// An [`Encoder`] refused a message, for example `B17 value "Depth"`: its report without the number of the line.
    Message(String),
    /// Reading the log failed.
    Log(io::Error),
}

impl fmt::Display for Error {
    fn fmt(&self, f: &mut fmt::Formatter<'_>) -> fmt::Result {
        match self {
            Error::Refused(_, text) | Error::Message(text) => f.write_str(text),
            Error::Log(error) => write!(f, "reading the log: {error}"),
        }
    }
}

impl std::error::Error for Error {}

/// A table that is read once, for any number of decoders and encoders, on any threads. Its memory is freed with the last of them.
///
/// ```
/// let table = n2kdec::Table::read(n2kdec::own_table())?;
/// let (mut decoder, mut encoder) = (table.decoder(n2kdec::Settings::default())?, table.encoder(false)?);
/// drop(table);
/// let line = encoder.encode(r#"{"pgn":127250,"fields":{"Heading":1.5}}"#)?;
/// decoder.feed(format!("{line}\n").as_bytes())?;
/// assert_eq!(decoder.messages()?.len(), 1);
/// # Ok::<(), n2kdec::Error>(())
/// ```
pub struct Table {
    /// An encoder that is fed nothing.
    raw: Mutex<raw::Decoder>,
}

impl Table {
    /// Reads a table.
    pub fn read(table: &[u8]) -> Result<Self, Error> {
        let mut raw = raw::Decoder::default();
        raw.open(table, None, &raw::RawSettings::encoding(false))?;
        Ok(Table { raw: Mutex::new(raw) })
    }

    /// Begins a log.
    pub fn decoder(&self, settings: Settings) -> Result<Decoder, Error> {
        Ok(Decoder { raw: self.open(None, &settings.into())? })
    }

    /// Continues from a state, as [`Decoder::resume`] does.
    pub fn resume(&self, state: &[u8], settings: Settings) -> Result<Decoder, Error> {
        Ok(Decoder { raw: self.open(Some(state), &settings.into())? })
    }

    /// Makes an encoder, as [`Encoder::new`] does.
    pub fn encoder(&self, nearest: bool) -> Result<Encoder, Error> {
        Ok(Encoder { raw: self.open(None, &raw::RawSettings::encoding(nearest))? })
    }

    fn open(&self, state: Option<&[u8]>, settings: &raw::RawSettings) -> Result<raw::Decoder, Error> {
        let mut raw = raw::Decoder::default();
        // A panic of another thread has changed nothing.
        raw.open_sharing(&mut self.raw.lock().unwrap_or_else(PoisonError::into_inner), state, settings)?;
        Ok(raw)
    }
}

/// A decoder of one log. All calls together give what `n2kdec decode` prints for the log.
///
/// It may go from thread to thread (`Send`), but two threads may not share it without a lock:
///
/// ```compile_fail,E0277
/// fn shared<T: Sync>() {}
/// shared::<n2kdec::Decoder>();
/// ```
pub struct Decoder {
    raw: raw::Decoder,
}

impl Decoder {
    /// Reads a table and begins a log.
    pub fn new(table: &[u8], settings: Settings) -> Result<Self, Error> {
        Self::open(table, None, settings)
    }

    /// Reads a table and continues from a state that [`Decoder::save`] or `n2kdec decode --save` wrote, with the same table,
    /// window and order.
    pub fn resume(table: &[u8], state: &[u8], settings: Settings) -> Result<Self, Error> {
        Self::open(table, Some(state), settings)
    }

    fn open(table: &[u8], state: Option<&[u8]>, settings: Settings) -> Result<Self, Error> {
        let mut raw = raw::Decoder::default();
        raw.open(table, state, &settings.into())?;
        Ok(Decoder { raw })
    }

    /// Feeds more of the log, in pieces of any size. After a refusal for memory the decoder is closed.
    pub fn feed(&mut self, bytes: &[u8]) -> Result<(), Error> {
        self.raw.feed(bytes)
    }

    /// Takes a CAN frame: the 29 bits of its identifier, its data of at most 8 bytes, and its time since 1970 in UTC. The
    /// decoder prints what it prints for the line that `candump -L` writes of the frame.
    pub fn frame(&mut self, identifier: u32, data: &[u8], seconds: u64, nanoseconds: u32) -> Result<(), Error> {
        self.raw.frame(identifier, data, seconds, nanoseconds)
    }

    /// Ends the log: its last line is taken even without a line feed.
    pub fn end(&mut self) -> Result<(), Error> {
        self.raw.end()
    }

    /// Takes the messages that wait, each a line of JSON without its line feed.
    pub fn messages(&mut self) -> Result<Vec<String>, Error> {
        self.raw.take(raw::n2k_take)
    }

    /// Takes the reports that wait. They occupy memory until they are taken.
    pub fn reports(&mut self) -> Result<Vec<String>, Error> {
        self.raw.take(raw::n2k_take_reports)
    }

    /// Returns the counts.
    pub fn counts(&self) -> Result<Counts, Error> {
        self.raw.counts()
    }

    /// Returns how many bytes of an unfinished line wait: the last bytes that were fed. They are not in a saved state.
    pub fn waiting(&self) -> Result<usize, Error> {
        self.raw.waiting()
    }

    /// Returns the state after the lines that were taken. What was not taken out, messages and reports, is not in it.
    pub fn save(&self) -> Result<Vec<u8>, Error> {
        self.raw.bytes(raw::n2k_save)
    }

    /// Decodes a log to its end, and gives each message as soon as its last line has been read. If the loop is left, the
    /// decoder keeps the messages that were not given: they come first in the next `decode`, or from `messages`.
    pub fn decode<R: Read>(&mut self, log: R) -> Messages<'_, R> {
        Messages { decoder: self, log, room: Vec::new(), is_read: false, is_over: false }
    }
}

/// Turns messages into plain lines, as `n2kdec encode` does. Like a [`Decoder`], it is `Send`.
///
/// ```
/// let mut encoder = n2kdec::Encoder::new(n2kdec::own_table(), false)?;
/// let line = encoder.encode(r#"{"pgn":128267,"src":5,"fields":{"SID":1,"Depth":3.4,"Offset":-0.5}}"#)?;
/// assert_eq!(line, "1970-01-01T00:00:00.000Z,6,128267,5,255,8,01,54,01,00,00,0c,fe,ff");
/// # Ok::<(), n2kdec::Error>(())
/// ```
pub struct Encoder {
    raw: raw::Decoder,
}

impl Encoder {
    /// Reads a table. With `nearest` a number is rounded to the nearest one that its field can show; otherwise it is refused.
    pub fn new(table: &[u8], nearest: bool) -> Result<Self, Error> {
        let mut raw = raw::Decoder::default();
        raw.open(table, None, &raw::RawSettings::encoding(nearest))?;
        Ok(Encoder { raw })
    }

    /// Returns the plain line, without its line feed, of a message: a JSON object as a [`Decoder`] gives it. After a refusal for
    /// memory the encoder is closed.
    pub fn encode(&mut self, message: &str) -> Result<String, Error> {
        // Within JSON a tab is white space where a line feed is, and in its strings neither is allowed.
        let mut line = message.trim_matches(&[' ', '\t', '\r', '\n'][..]).replace(&['\r', '\n'][..], "\t");
        if line.is_empty() || line.starts_with('#') {
            // The library skips empty lines and comments. After a space it refuses them.
            line.insert(0, ' ');
        }
        line.push('\n');
        self.raw.feed(line.as_bytes())?;
        let (printed, reports) = (self.raw.take(raw::n2k_take)?, self.raw.take(raw::n2k_take_reports)?);
        let refused = || Error::Message(reports.iter().flat_map(|it| it.splitn(4, ' ').nth(3)).collect());
        printed.into_iter().next().ok_or_else(refused)
    }
}

/// The messages of a log, each a line of JSON. Reports are dropped; after an error there is nothing more.
pub struct Messages<'a, R> {
    decoder: &'a mut Decoder,
    log: R,
    /// Where a line is moved to.
    room: Vec<u8>,
    /// Whether the log has been read to its end.
    is_read: bool,
    is_over: bool,
}

impl<R: Read> Messages<'_, R> {
    /// Reads and decodes a piece.
    fn more(&mut self) -> Result<(), Error> {
        let mut piece = [0; 1 << 16];
        match self.log.read(&mut piece) {
            Ok(0) => {
                self.is_read = true;
                self.decoder.end()?;
            }
            Ok(count) => self.decoder.feed(&piece[..count])?,
            Err(error) if error.kind() == io::ErrorKind::Interrupted => {}
            Err(error) => return Err(Error::Log(error)),
        }
        self.decoder.reports()?;
        Ok(())
    }

    /// The next message; None after the last.
    fn message(&mut self) -> Result<Option<String>, Error> {
        loop {
            let line = self.decoder.raw.next(&mut self.room)?;
            if line.is_some() || self.is_read {
                return Ok(line);
            }
            self.more()?;
        }
    }
}

impl<R: Read> Iterator for Messages<'_, R> {
    type Item = Result<String, Error>;

    fn next(&mut self) -> Option<Self::Item> {
        if self.is_over {
            return None;
        }
        let message = self.message();
        self.is_over = !matches!(message, Ok(Some(_)));
        message.transpose()
    }
}
