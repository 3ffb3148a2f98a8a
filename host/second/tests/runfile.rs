//! The run file's reader.

use second::runfile::{replay, Stop};
use second::Nobody;

/// The output, and the line and cause of an error.
fn played(text: &[u8]) -> (String, Option<(usize, String)>) {
    let mut out = Vec::new();
    let stop = match replay(text, &mut out, &mut Nobody) {
        Ok(()) => None,
        Err(Stop::Line(line, cause)) => Some((line, cause)),
        Err(Stop::Output(error)) => panic!("{error}"),
    };
    (String::from_utf8(out).unwrap(), stop)
}

fn stops_at(text: &[u8]) -> usize {
    played(text).1.expect("an error").0
}

#[test]
fn a_small_run() {
    let text = b"# a comment\r\n\r\nstart 0 1 0 0 0 0xFFFFffff # here\n\
        6840 0 127 0\t# one event\n6840 0x0000000002 0x7F 7\nmove 6840 2\nstamps\nreport\nanswers\nmove 6840 1\nanswers";
    let (out, stop) = played(text);
    assert_eq!(stop, None);
    assert_eq!(
        out,
        "start 0\n6840 0 2\nstamps 4294967295 1 0\nreport 8 00000000000000\nanswers 6846\n\
         answers 6840 256 43981\n6840 0 1\nanswers 6846\nanswers 6840 256 0\n"
    );
}

#[test]
fn a_refused_start_goes_on() {
    let (out, stop) = played(b"start 0 0 0 0 0 7\nstamps\nreport\nmove 6846 0\n");
    assert_eq!(stop, None);
    assert_eq!(
        out,
        "start 1\nstamps 0 0 0\nreport 0 11111111100001\n6846 2 0\n"
    );
}

#[test]
fn errors_name_their_line() {
    for text in [
        "report\n",
        "stamps\n",
        "answers\n",
        "move 6840 1\n",
        "6846 1 1 0\n",
        "6840 1 1 0\n",
        "start 0 1 0 0 0\n",
        "start 0 1 0 0 0 0 0\n",
        "start 0 1 0 0 0 4294967296\n",
        "start 0 1 0 0 0 0x\n",
        "start 0 1 0 0 0 0X1\n",
        "start 0 1 0 0 0 -1\n",
        "start 0 1 0 0 0 +1\n",
        "start 0 1 0 0 0 1a\n",
        "start 0 1 0 0 0 1\r",
        "begin\n",
        "rom\n",
        "rom a b\n",
        "rom no/such/file\n",
    ] {
        assert_eq!(stops_at(text.as_bytes()), 1, "{text:?}");
    }
    for text in [
        "move 6841 1",
        "move 6846",
        "move 6846 1 2",
        "report 1",
        "6846 1 2",
        "6840 1 2 3 4",
        "é",
    ] {
        let text = format!("start 0 1 0 0 0 0\n\n{text}\nreport\n");
        assert_eq!(stops_at(text.as_bytes()), 3, "{text:?}");
        assert_eq!(played(text.as_bytes()).0, "start 0\n");
    }
}

#[test]
fn the_longest_line() {
    let mut text = b"start 0 1 0 0 0 0 #".to_vec();
    text.resize(4096, b'x');
    let good = [&text[..], b"\nstamps\n"].concat();
    assert_eq!(played(&good).1, None);
    let long = [&text[..], b"x\nstamps\n"].concat();
    assert_eq!(stops_at(&long), 1);
    // The CR is a byte before the LF too.
    let long = [&text[..], b"\r\nstamps\n"].concat();
    assert_eq!(stops_at(&long), 1);
}

#[test]
fn the_most_events() {
    let mut text = b"start 0 1 0 0 0 0\n".to_vec();
    for stamp in 1..=65_536 {
        text.extend(format!("6840 {stamp} 127 0\n").bytes());
    }
    text.extend(b"move 6840 65536\n");
    assert_eq!(played(&text).0, "start 0\n6840 0 65536\n");
    text.extend(b"6840 65537 127 0\n");
    assert_eq!(stops_at(&text), 65_539);
}
