//! Every recording of `examples/` and of `tests/cases/` whose events are one after the other, through the crate, beside
//! its report.
//!
//! Of each event is compared: which commands start, in their order, each with its unit, its attribute and the request
//! that its cookie stands for; which stop, in their order, and whether by a Logout; whether nothing comes of it; which
//! connections close; and the replies of each connection, in their order and byte for byte.
//!
//! A report has no outbox behind it: there the answer to an abort goes out in its place. Here it goes out when what it
//! took out has stopped, which this target says behind the event. So in an event in which a command stops the replies
//! of a connection may have changed places: they are compared without their StatSNs, in any order, and the StatSNs in
//! order.
//!
//! A reply that waited on a connection as another one's Logout closed it is in the report, and doesn't go out. NOP-Ins
//! that show MaxCmdSN alone aren't in it.
//!
//! Beside that: each connection that gives something was told to be ready; what a cookie stands for is never spoken of
//! once it is forgotten; and when all connections are lost, none is left.

mod play;
mod text;

use std::fs;
use std::path::{Path, PathBuf};
use text::{effects_of, options_of, Outcome, Reader, Recording};

/// The replies of a connection.
fn replies_on(cid: u16, outcome: &Outcome) -> Vec<Vec<u8>> {
    outcome.replies.iter().filter(|(other, _)| *other == cid).map(|(_, reply)| reply.clone()).collect()
}

/// The same without their StatSNs and in an order of bytes, and the StatSNs in their order.
fn apart(mut replies: Vec<Vec<u8>>) -> (Vec<Vec<u8>>, Vec<Vec<u8>>) {
    let stat_sns = replies.iter_mut().map(|reply| reply.splice(24..28, []).collect()).collect();
    replies.sort();
    (replies, stat_sns)
}

/// Compares what came of an event with what the report has.
fn judge(place: &str, mut shown: Outcome, mut wanted: Outcome, connections: &[(u16, u32)]) {
    for (cid, _) in connections {
        let (shown_there, wanted_there) = (replies_on(*cid, &shown), replies_on(*cid, &wanted));
        if wanted.stops.is_empty() {
            assert_eq!(shown_there, wanted_there, "{place}: connection {cid}");
        }
        assert_eq!(apart(shown_there), apart(wanted_there), "{place}: connection {cid}");
    }
    for outcome in [&mut shown, &mut wanted] {
        outcome.replies.clear();
        outcome.closes.sort();
    }
    assert_eq!(shown, wanted, "{place}");
}

/// Plays a recording beside its report. Gives how many replies there were, and in how many events a command stops.
fn compare(name: &str, words: &str, recording: &[u8], report: &str) -> (usize, usize) {
    let recording = Recording::read(recording);
    let effects = effects_of(report);
    assert_eq!(recording.events.len(), effects.len(), "{name}");
    let mut reader = Reader::new(&recording.connections);
    let mut player = play::opened(options_of(words).0, &recording).expect("the options are right");
    let (mut replies, mut stopping) = (0, 0);
    for (place, (event, effects)) in recording.events.iter().zip(&effects).enumerate() {
        let (shown, wanted) = (player.play(place as u64, event), reader.outcome(effects));
        replies += wanted.replies.len();
        stopping += usize::from(!wanted.stops.is_empty());
        let place = format!("{name}, event {}", place + 1);
        judge(&place, shown, wanted, &recording.connections);
        assert!(player.is_silent(&recording.connections), "{place}");
    }
    assert_eq!(player.end(&recording.connections), 0, "{name}: requests are kept for ever");
    (replies, stopping)
}

fn top() -> PathBuf {
    Path::new(env!("CARGO_MANIFEST_DIR")).join("../..")
}

#[test]
fn examples() {
    let (mut count, mut replies) = (0, 0);
    let folders = ["examples", "examples/recordings"];
    for entry in folders.iter().flat_map(|folder| fs::read_dir(top().join(folder)).expect("a folder")) {
        let path = entry.expect("an entry").path();
        if path.extension().is_some_and(|is| is == "recording") {
            let recording = fs::read(&path).expect("a recording");
            let first = recording.split(|byte| *byte == b'\n').next().unwrap_or(&[]);
            let first = String::from_utf8_lossy(first).into_owned();
            let words = first.strip_prefix("# iscsi-replay: ").unwrap_or("");
            let report = fs::read_to_string(path.with_extension("report")).expect("its report");
            replies += compare(&path.display().to_string(), words, &recording, &report).0;
            count += 1;
        }
    }
    assert!(count > 10 && replies > 30, "{count} examples with {replies} replies");
}

/// The folders below this one that have a recording and a report.
fn cases_in(folder: &Path, cases: &mut Vec<PathBuf>) {
    if folder.join("report").is_file() && folder.join("recording").is_file() {
        cases.push(folder.to_path_buf());
    }
    for entry in fs::read_dir(folder).expect("a folder") {
        let path = entry.expect("an entry").path();
        if path.is_dir() {
            cases_in(&path, cases);
        }
    }
}

#[test]
fn cases() {
    let mut cases = Vec::new();
    cases_in(&top().join("tests/cases"), &mut cases);
    assert!(cases.len() > 50, "{} cases", cases.len());
    let (mut replies, mut stopping) = (0, 0);
    for case in cases {
        let words = fs::read_to_string(case.join("args")).unwrap_or_default();
        // With threads the program passes the completions of the recording over, and makes its own.
        if !options_of(&words).1 {
            let recording = fs::read(case.join("recording")).expect("a recording");
            let report = fs::read_to_string(case.join("report")).expect("a report");
            let (more, stops) = compare(&case.display().to_string(), &words, &recording, &report);
            (replies, stopping) = (replies + more, stopping + stops);
        }
    }
    assert!(replies > 200 && stopping > 20, "{replies} replies, {stopping} events in which a command stops");
}
