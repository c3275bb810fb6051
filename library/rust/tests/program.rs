//! Compares the decoder with the program.
mod common;

use common::{at, of_program};
use n2kdec::{own_table, Decoder, Encoder, Error, Settings};
use std::fs;
use std::io::{self, Read};

#[test]
fn frames_print_what_their_lines_print() {
    let table = fs::read(at("tables/n2k.toml")).unwrap();
    assert_eq!(table, own_table());
    let mut frames = Decoder::new(own_table(), Settings::default()).unwrap();
    let mut lines = Decoder::new(&table, Settings::default()).unwrap();
    for micros in [0, 114_999, 999_999] {
        frames.frame(0x09F8_0103, &[0x89, 0x40, 0xB2, 0x20, 0, 0x74, 0x45, 6], 1_751_608_800, 1000 * micros).unwrap();
        lines.feed(format!("(1751608800.{micros:06}) can0 09F80103#8940B22000744506\n").as_bytes()).unwrap();
    }
    let printed = frames.messages().unwrap();
    assert_eq!((printed.len(), printed), (3, lines.messages().unwrap()));
    assert!(matches!(frames.frame(1 << 29, &[], 0, 0), Err(Error::Refused(9, _))));
}

#[test]
fn an_iterator_gives_every_message() {
    let table = fs::read(at("tables/n2k.toml")).unwrap();
    let mut decoder = Decoder::new(&table, Settings { empty: true, ..Settings::default() }).unwrap();
    let log = fs::File::open(at("examples/trip.log")).unwrap();
    let printed: Vec<_> = decoder.decode(log).map(Result::unwrap).collect();
    assert_eq!(printed, of_program(&["--empty"], "tables/n2k.toml", &at("examples/trip.log")).0);
    // The log has ended.
    assert!(matches!(decoder.feed(b"x"), Err(Error::Refused(7, _))));
}

#[test]
fn a_loop_that_is_left_loses_no_message() {
    let log = fs::read(at("examples/trip.log")).unwrap();
    let wanted = of_program(&[], "tables/n2k.toml", &at("examples/trip.log")).0;
    for count in 0..=wanted.len() {
        let mut decoder = Decoder::new(own_table(), Settings::default()).unwrap();
        let mut rest = &log[..];
        let mut printed: Vec<_> = decoder.decode(&mut rest).take(count).map(Result::unwrap).collect();
        printed.extend(decoder.decode(&mut rest).map(Result::unwrap));
        assert_eq!(printed, wanted);
    }
}

#[test]
fn refusals_have_the_words_of_the_program() {
    let refused = |table: &[u8], window| Decoder::new(table, Settings { window, ..Settings::default() }).err().map(|it| it.to_string());
    assert_eq!(refused(b"", 10_000).as_deref(), Some("table 2 Format"));
    assert!(refused(&fs::read(at("tables/n2k.toml")).unwrap(), 31).is_some());
}

#[test]
fn messages_become_plain_lines_or_are_refused() {
    let (mut exact, mut nearest) = (Encoder::new(own_table(), false).unwrap(), Encoder::new(own_table(), true).unwrap());
    let depth = r#"{"pgn":128267,"fields":{"Depth":3.401}}"#;
    for (message, refusal) in [
        (depth, r#"B17 value "Depth""#),
        (r#"{"pgn":128267,"fields":{"Dept":3.4}}"#, r#"B16 field "Dept""#),
        ("{\"pgn\":128267,\"fields\":{\"a\nb\":3.4}}", "B13 json"),
        ("", "B13 json"),
        ("\n", "B13 json"),
        ("# a comment", "B13 json"),
    ] {
        assert!(matches!(exact.encode(message), Err(Error::Message(text)) if text == refusal), "{message}");
    }
    let line = "1970-01-01T00:00:00.000Z,6,127250,0,255,8,ff,5c,3d,ff,7f,ff,7f,fd";
    assert_eq!(exact.encode("{\n  \"pgn\": 127250,\r\n  \"fields\": {\"Heading\": 1.5708, \"Reference\": \"Magnetic\"}\n}\n").unwrap(), line);
    assert_eq!(nearest.encode(depth).unwrap(), "1970-01-01T00:00:00.000Z,6,128267,0,255,8,ff,54,01,00,00,ff,7f,ff");
    assert!(matches!(Encoder::new(b"", false), Err(Error::Refused(102, _))));
}

#[test]
fn decoded_messages_are_encoded_and_decoded_again() {
    let mut decoder = Decoder::new(own_table(), Settings::default()).unwrap();
    let mut again = Decoder::new(own_table(), Settings { whole: true, ..Settings::default() }).unwrap();
    let mut encoder = Encoder::new(own_table(), false).unwrap();
    let messages: Vec<_> = decoder.decode(fs::File::open(at("examples/trip.log")).unwrap()).map(Result::unwrap).collect();
    for message in &messages {
        again.feed(format!("{}\n", encoder.encode(message).unwrap()).as_bytes()).unwrap();
    }
    assert_eq!(again.messages().unwrap(), messages);
}

/// A log that fails after its first frame.
struct Failing<'a>(&'a [u8]);

impl Read for Failing<'_> {
    fn read(&mut self, room: &mut [u8]) -> io::Result<usize> {
        match self.0.read(room) {
            Ok(0) => Err(io::Error::new(io::ErrorKind::Other, "unplugged")),
            other => other,
        }
    }
}

#[test]
fn a_log_that_fails_ends_the_messages() {
    let table = fs::read(at("tables/n2k.toml")).unwrap();
    let mut decoder = Decoder::new(&table, Settings::default()).unwrap();
    let line = b"(1751608800.114000) can0 09F80103#0123456789ABCDEF\n";
    let mut messages = decoder.decode(Failing(line));
    assert!(messages.next().unwrap().unwrap().starts_with("{\"timestamp\":\"2025-07-04T06:00:00.114Z\",\"prio\":2,\"src\":3,"));
    assert_eq!(messages.next().unwrap().unwrap_err().to_string(), "reading the log: unplugged");
    assert!(messages.next().is_none());
}
