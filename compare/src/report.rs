//! What is printed while a run goes on, and the counts that are left for other programs.

use crate::check::Difference;
use crate::differences::Differences;
use crate::links::VERDICTS;
use crate::progress::Progress;
use crate::seen::{Followed, Records, Seen, Spellings};
use crate::show;
use std::io::Write;

/// How many mismatches are printed in full. The others are counted, and stand in the file of differences, if there is one.
const SHOWN: usize = 20;

/// The SHA-256 of the archive that this program was linked with, which compare/build gives.
const ARCHIVE: &str = env!("COMPARE_ARCHIVE");

pub struct Line {
    pub name: String,
    pub inputs: u64,
    pub mismatches: u64,
    /// How many of these stand in the file of differences.
    pub written: u64,
}

struct Mismatch {
    class: String,
    input: String,
    reproduce: String,
    differences: Vec<Difference>,
}

impl Mismatch {
    fn text(&self) -> String {
        let difference = |d: &Difference| format!("  {}\n    owed: {}\n    port: {}\n", d.what, d.owed, d.port);
        let differences: String = self.differences.iter().map(difference).collect();
        format!("MISMATCH: {}\n  input: {}\n{}  again: {}\n", self.class, self.input, differences, self.reproduce)
    }
}

#[derive(Default)]
pub struct Report {
    pub lines: Vec<Line>,
    /// Only the classes whose name has this in it are run.
    pub only: Option<String>,
    pub progress: Progress,
    /// Where every mismatch is written to.
    differences: Differences,
    /// Those that were printed.
    shown: Vec<Mismatch>,
    extra: Vec<(String, String)>,
}

impl Report {
    pub fn new(only: Option<String>, differences: Differences, progress: Progress) -> Report {
        Report { only, differences, progress, ..Report::default() }
    }

    /// Whether mismatches are only counted from now on.
    pub fn full(&self) -> bool {
        self.shown.len() >= SHOWN && !self.differences.has_room()
    }

    /// Prints a mismatch and keeps it, if not enough were, and writes it to the file; whether the file has it.
    pub fn mismatch(&mut self, class: &str, input: String, reproduce: String, differences: Vec<Difference>) -> bool {
        let mismatch = Mismatch { class: class.to_string(), input, reproduce, differences };
        let text = mismatch.text();
        if self.shown.len() < SHOWN {
            self.progress.clear();
            print!("{}", text);
            self.shown.push(mismatch);
            if self.shown.len() == SHOWN {
                println!("  (from here on mismatches are only {})", self.differences.name().map_or("counted".to_string(), |name| format!("written to {}", name)));
            }
        }
        self.differences.write(&text)
    }

    /// One class is done.
    pub fn class(&mut self, line: Line) {
        self.progress.clear();
        if line.mismatches == 0 {
            println!("ok: {}: {} inputs", line.name, line.inputs);
        } else {
            println!("FAILED: {}: {} inputs, {} mismatches", line.name, line.inputs, line.mismatches);
        }
        // Whoever waits for a long run sees how far it is, though the output may be a pipe.
        let _ = std::io::stdout().flush();
        self.lines.push(line);
    }

    /// The last lines, also of the file of differences; whether nothing failed.
    pub fn finish(&mut self) -> bool {
        for line in self.lines.iter().filter(|line| line.mismatches > line.written) {
            self.differences.line(&format!("NOT WRITTEN HERE: {}: {} more mismatches\n", line.name, line.mismatches - line.written));
        }
        let (mismatches, written) = self.mismatches();
        if let Some(name) = self.differences.name().filter(|_| mismatches > 0) {
            println!("mismatches written to {}: {} of {}", name, written, mismatches);
        }
        let failed = self.lines.iter().filter(|line| line.mismatches > 0).count();
        println!("{} passed, {} failed", self.lines.len() - failed, failed);
        failed == 0 && !self.lines.is_empty()
    }

    /// How many there were, and how many of them are in the file of differences.
    fn mismatches(&self) -> (u64, u64) {
        let sum = |count: fn(&Line) -> u64| self.lines.iter().map(count).sum();
        (sum(|line| line.mismatches), sum(|line| line.written))
    }

    /// A part of the JSON besides the classes, already in JSON.
    pub fn extra(&mut self, name: &str, json: String) {
        self.extra.push((name.to_string(), json));
    }

    pub fn json(&self) -> String {
        let line = |line: &Line| {
            object(&[
                ("name", string(&line.name)),
                ("inputs", line.inputs.to_string()),
                ("mismatches", line.mismatches.to_string()),
            ])
        };
        let (mismatches, written) = self.mismatches();
        let mut fields = vec![
            ("archive", string(ARCHIVE)),
            ("classes", list(self.lines.iter().map(line))),
            ("mismatches", mismatches.to_string()),
            ("mismatches_shown", list(self.shown.iter().map(mismatch_json))),
            ("mismatches_written", written.to_string()),
        ];
        fields.extend(self.extra.iter().map(|(name, json)| (name.as_str(), json.clone())));
        object(&fields) + "\n"
    }
}

fn mismatch_json(mismatch: &Mismatch) -> String {
    let difference = |d: &Difference| {
        object(&[("what", string(&d.what)), ("owed", string(&d.owed)), ("port", string(&d.port))])
    };
    object(&[
        ("class", string(&mismatch.class)),
        ("input", string(&mismatch.input)),
        ("again", string(&mismatch.reproduce)),
        ("differences", list(mismatch.differences.iter().map(difference))),
    ])
}

/// The totals of a run, printed and for the JSON.
pub fn totals(report: &mut Report, seen: &Seen) {
    let (relays, relayed) = seen.relay_counts();
    println!("decodes compared: {}; writes compared: {}", seen.decodes, seen.writes);
    println!("relays compared: {}, {} of them passed on", relays, relayed);
    let packets = seen.packet_counts();
    let said: Vec<String> = packets.iter().map(|(number, count)| format!("{}: {}", number, count)).collect();
    println!("KISS packets compared: {}; by number: {}", packets.iter().map(|(_, count)| count).sum::<u64>(), said.join(", "));
    let streams = &seen.streams;
    println!("KISS streams compared: {}, of {} octets: {} packets given out, {} dropped", streams.streams, streams.octets, streams.given, streams.dropped);
    let numbers = seen.number_counts();
    let said: Vec<String> = numbers.iter().map(|(number, count)| format!("{}: {}", number, count)).collect();
    println!("decode numbers: {}", said.join(", "));
    let old = seen.old_captures.counts();
    let said: Vec<String> = old.iter().map(|(number, count)| format!("{}: {}", number, count)).collect();
    println!("decode numbers as old captures: {}; behind nulls: {}", said.join(", "), seen.old_captures.nulled);
    let kinds = seen.kind_counts();
    let said: Vec<String> = kinds.iter().map(|(kind, count)| format!("{}: {}", kind, count)).collect();
    println!("kinds accepted: {}; canonical: {} of {}", said.join(", "), seen.spellings.canonical, seen.spellings.accepted);
    let said: Vec<String> = seen.spellings.reasons().iter().map(|(reason, count)| format!("{}: {}", reason, count)).collect();
    println!("not canonical, by reason: {}", said.join(", "));
    let records = &seen.parts.records;
    println!("records filled by one call over many parts: {}; not inside: {}", filled_words(records), records.not_inside);
    let (offers, verdicts) = seen.links.counts();
    println!("frames offered to links: {}; {}", offers, verdict_words(&verdicts));
    let rooms = seen.room_counts();
    let said: Vec<String> = rooms.iter().map(|(room, count)| format!("{}: {}", room, count)).collect();
    println!("room lent to writers: {}", said.join(", "));
    for (number, what, count) in seen.listed_counts() {
        println!("listed difference {} ({}): {}", number, what, count);
    }
    report.extra("decodes", seen.decodes.to_string());
    report.extra("writes", seen.writes.to_string());
    report.extra("relays", relays.to_string());
    report.extra("relayed", relayed.to_string());
    for (name, json) in spelled(&seen.spellings) {
        report.extra(name, json);
    }
    report.extra("decode_numbers", counts(numbers.iter().map(|(number, count)| (number.to_string(), *count))));
    report.extra("old_capture_numbers", counts(old.iter().map(|(number, count)| (number.to_string(), *count))));
    report.extra("packet_numbers", counts(packets.iter().map(|(number, count)| (number.to_string(), *count))));
    let of_streams = [("streams", streams.streams), ("octets", streams.octets), ("packets", streams.given), ("dropped", streams.dropped)];
    report.extra("kiss_streams", counts(of_streams.into_iter().map(|(name, count)| (name.to_string(), count))));
    report.extra("kinds", counts(kinds.iter().map(|(kind, count)| (kind.to_string(), *count))));
    report.extra("records", object(&[&filled(records)[..], &[("not_inside", records.not_inside.to_string())]].concat()));
    report.extra("offers", named(&[&[("offers", offers)][..], &by_verdict(&verdicts)].concat()));
    report.extra("rooms", counts(rooms.iter().map(|(room, count)| (room.to_string(), *count))));
    report.extra("listed", counts(seen.listed_counts().into_iter().map(|(number, _, count)| (number, count))));
}

/// The same of canonical inputs and others beside them.
pub fn pairs(report: &mut Report, seen: &Seen) {
    let ways = seen.pairs.counts();
    for (way, outcomes) in ways.iter().filter(|(_, outcomes)| !outcomes.is_empty()) {
        let said: Vec<String> = outcomes.iter().map(|(outcome, count)| format!("{}: {}", outcome, count)).collect();
        println!("beside a canonical input, {}: {}", way, said.join(", "));
    }
    let ways: Vec<(&str, String)> = ways.iter().map(|(way, outcomes)| (*way, named(outcomes))).collect();
    report.extra("pairs", object(&ways));
}

/// What the port's frames tell apart and the Rust's don't.
pub fn told_apart(report: &mut Report, seen: &Seen) {
    let [pid, reserved] = seen.pairs.only_port;
    println!("bits that the port's frame shows and the Rust's does not: of a layer 3 PID (B6): {}, reserved (B7): {}", pid, reserved);
    report.extra("only_port", named(&[("B6", pid), ("B7", reserved)]));
}

/// How many inputs were accepted and canonical, and the others by reason, for the JSON.
pub fn spelled(spellings: &Spellings) -> [(&'static str, String); 3] {
    [("accepted", spellings.accepted.to_string()), ("canonical", spellings.canonical.to_string()), ("reasons", named(&spellings.reasons()))]
}

/// How many records `ax25_captures` filled, and in how many calls; how many of their parts are refused, and the others by kind.
pub fn filled(records: &Records) -> [(&'static str, String); 4] {
    let counts = [("calls", records.calls), ("records", records.records), ("refused", records.refused)];
    let [calls, all, refused] = counts.map(|(name, count)| (name, count.to_string()));
    [calls, all, refused, ("kinds", named(&records.kinds()))]
}

pub fn filled_words(records: &Records) -> String {
    let kinds: Vec<String> = records.kinds().iter().map(|(kind, count)| format!("{}: {}", kind, count)).collect();
    format!("{} in {} calls; {}; refused: {}", records.records, records.calls, kinds.join(", "), records.refused)
}

fn by_verdict(counts: &[u64; VERDICTS.len()]) -> [(&'static str, u64); VERDICTS.len()] {
    let mut named = VERDICTS.map(|(_, name)| (name, 0));
    named.iter_mut().zip(counts).for_each(|((_, count), counted)| *count = *counted);
    named
}

fn verdict_words(counts: &[u64; VERDICTS.len()]) -> String {
    by_verdict(counts).map(|(name, count)| format!("{}: {}", name.replace('_', " "), count)).join(", ")
}

/// How many links were followed, their I frames by what they are, and those of no such link, for the JSON.
pub fn followed(followed: &Followed) -> String {
    named(&[&[("followed", followed.links)][..], &by_verdict(&followed.counts), &[("not_followed", followed.not_followed)]].concat())
}

pub fn followed_words(followed: &Followed) -> String {
    format!("{}; their I frames: {}; I frames of no such link: {}", followed.links, verdict_words(&followed.counts), followed.not_followed)
}

fn named(outcomes: &[(&str, u64)]) -> String {
    counts(outcomes.iter().map(|&(name, count)| (name.to_string(), count)))
}

pub fn counts(counts: impl Iterator<Item = (String, u64)>) -> String {
    let fields: Vec<(String, String)> = counts.map(|(name, count)| (name, count.to_string())).collect();
    object(&fields.iter().map(|(name, count)| (name.as_str(), count.clone())).collect::<Vec<_>>())
}

pub fn object(fields: &[(&str, String)]) -> String {
    let fields: Vec<String> = fields.iter().map(|(name, value)| format!("{}: {}", string(name), value)).collect();
    format!("{{{}}}", fields.join(", "))
}

pub fn list(items: impl Iterator<Item = String>) -> String {
    format!("[{}]", items.collect::<Vec<_>>().join(", "))
}

pub fn string(text: &str) -> String {
    let mut json = String::from("\"");
    for c in text.chars() {
        match c {
            '"' => json.push_str("\\\""),
            '\\' => json.push_str("\\\\"),
            c if (c as u32) < 0x20 => json.push_str(&format!("\\u{:04x}", c as u32)),
            c => json.push(c),
        }
    }
    json.push('"');
    json
}

/// An input of so many octets fits a command.
pub const SHORT: usize = 4096;

/// How to look at one input again, by this command.
pub fn again(command: &str, input: &[u8]) -> String {
    if input.len() <= SHORT {
        format!("{} '{}'", command, show::hex(input))
    } else {
        format!("{} -    (and the input's hex digits on standard input)", command)
    }
}
