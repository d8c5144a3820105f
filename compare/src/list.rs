//! What captures.py prints of captures, as a file. It may be longer than there is memory for, so it is gone over line by line, once to see
//! what there is and then once for each thing that is asked of a capture. Of it all one line is held at a time.

use crate::kiss::{self, FEND};
use crate::show;
use std::fs::{File, OpenOptions};
use std::io::{self, BufRead, BufReader, Read};
use std::ops::Range;
use std::os::unix::fs::{FileExt, OpenOptionsExt};
use std::time::{SystemTime, UNIX_EPOCH};

/// How many of the notes on what was passed over are kept for the JSON. All of them are printed.
const NOTES: usize = 1000;

/// A capture: how much of each sort it has, and where its lines stand.
pub struct Capture {
    pub file: String,
    pub format: String,
    pub frames: u64,
    pub packets: u64,
    /// How many octets its log has, where it is a KISS log.
    pub log: Option<u64>,
    /// The first notes on what was passed over, and how many there are in all.
    pub notes: Vec<String>,
    pub passed_over: u64,
    /// The SHA-256 and the number of octets of the file, where they are said.
    pub digest: Option<(String, u64)>,
    lines: Range<u64>,
}

/// All captures; a file that captures.py refused has the reason.
pub struct List {
    file: File,
    pub captures: Vec<Capture>,
    pub refused: Vec<(String, String)>,
}

/// One line, by its first word.
enum Line<'a> {
    Capture(&'a str, &'a str),
    Refused(&'a str, &'a str),
    Frame(&'a str, Vec<u8>),
    /// Where it stands, its octets, and how captures.py read it.
    Packet(&'a str, Vec<u8>, kiss::Read),
    /// The next octets of a KISS log.
    Log(Vec<u8>),
    PassedOver(&'a str),
    End(&'a str, u64),
}

impl Line<'_> {
    /// Of the first line of a text.
    fn of(text: &str) -> Result<Line<'_>, String> {
        let fields: Vec<&str> = text.lines().next().unwrap_or("").split('\t').collect();
        Ok(match fields[..] {
            ["capture", file, format] => Line::Capture(file, format),
            ["refused", file, problem] => Line::Refused(file, problem),
            ["frame", place, octets] => Line::Frame(place, show::unhex(octets)?),
            ["packet", place, octets, number, port, data] => Line::Packet(place, show::unhex(octets)?, packet_read(number, port, data)?),
            ["log", octets] => Line::Log(show::unhex(octets)?),
            ["passed over", what] => Line::PassedOver(what),
            ["end", digest, octets] if is_digest(digest) => Line::End(digest, value(octets)?),
            _ => return Err("it is none that captures.py prints".to_string()),
        })
    }
}

fn value(text: &str) -> Result<u64, String> {
    text.parse().map_err(|_| format!("'{}' is no number", text))
}

fn is_digest(text: &str) -> bool {
    text.len() == 64 && text.bytes().all(|digit| digit.is_ascii_hexdigit())
}

/// A reading of captures.py: a refusal has no port and no data, as the call gives 0 for both.
fn packet_read(number: &str, port: &str, data: &str) -> Result<kiss::Read, String> {
    match (u32::try_from(value(number)?), u8::try_from(value(port)?), show::unhex(data)?) {
        (Ok(0), Ok(port), data) => Ok(Ok((port, data))),
        (Ok(number), Ok(0), data) if data.is_empty() => Ok(Err(number)),
        _ => Err(format!("a packet with number {}, port {} and data {}", number, port, data)),
    }
}

/// Some octets of a file, read without moving any other reader of it.
struct Section<'a> {
    file: &'a File,
    left: Range<u64>,
}

impl Read for Section<'_> {
    fn read(&mut self, into: &mut [u8]) -> io::Result<usize> {
        let most = into.len().min(usize::try_from(self.left.end - self.left.start).unwrap_or(usize::MAX));
        let count = self.file.read_at(&mut into[..most], self.left.start)?;
        self.left.start += count as u64;
        Ok(count)
    }
}

fn reader(file: &File, lines: Range<u64>) -> BufReader<Section<'_>> {
    BufReader::with_capacity(1 << 16, Section { file, left: lines })
}

/// What can be read only once, as a file. It loses its name before anything is in it, so it is gone when this program ends, however it does.
fn kept(mut from: impl Read) -> Result<File, String> {
    let now = SystemTime::now().duration_since(UNIX_EPOCH).map_or(0, |since| since.as_nanos());
    let path = std::env::temp_dir().join(format!("compare-{}-{}", std::process::id(), now));
    let made = OpenOptions::new().read(true).write(true).create_new(true).mode(0o600).open(&path);
    let mut file = made.map_err(|problem| format!("no copy of it can be made, {}: {}", path.display(), problem))?;
    std::fs::remove_file(&path).map_err(words)?;
    io::copy(&mut from, &mut file).map_err(words)?;
    Ok(file)
}

fn words(problem: io::Error) -> String {
    problem.to_string()
}

fn opened(path: &str) -> Result<File, String> {
    let file = File::open(path).map_err(words)?;
    if file.metadata().map_err(words)?.is_file() { Ok(file) } else { kept(file) }
}

impl List {
    /// The list of this name, or that on standard input.
    pub fn open(path: Option<&str>) -> Result<List, String> {
        let read = || {
            let file = path.map_or_else(|| kept(io::stdin()), opened)?;
            let mut list = List { file, captures: Vec::new(), refused: Vec::new() };
            list.look_over()?;
            Ok(list)
        };
        read().map_err(|problem: String| format!("{}: {}", path.unwrap_or("standard input"), problem))
    }

    /// Looks at every line, so that nothing is compared where one is wrong.
    fn look_over(&mut self) -> Result<(), String> {
        let file = self.file.try_clone().map_err(words)?;
        let mut reader = reader(&file, 0..u64::MAX);
        let (mut text, mut at, mut open) = (String::new(), 0, false);
        for number in 1.. {
            let of_line = |problem: String| format!("line {}: {}", number, problem);
            text.clear();
            let length = reader.read_line(&mut text).map_err(words).map_err(of_line)? as u64;
            if length == 0 {
                break;
            }
            let line = Line::of(&text).map_err(of_line)?;
            open = self.take(line, at..at + length, open).map_err(of_line)?;
            at += length;
        }
        Ok(())
    }

    /// Whether the last capture may have more lines after this one.
    fn take(&mut self, line: Line, at: Range<u64>, open: bool) -> Result<bool, String> {
        match (line, self.captures.last_mut().filter(|_| open)) {
            (Line::Capture(file, format), _) => {
                let (file, format) = (file.to_string(), format.to_string());
                self.captures.push(Capture { file, format, frames: 0, packets: 0, log: None, notes: Vec::new(), passed_over: 0, digest: None, lines: at });
                Ok(true)
            }
            (Line::Refused(file, problem), _) => {
                self.refused.push((file.to_string(), problem.to_string()));
                Ok(open)
            }
            (line, Some(capture)) => {
                capture.lines.end = at.end;
                Ok(capture.take(line))
            }
            (_, None) => Err("it is of no capture: each begins with 'capture', and 'end' is its last line".to_string()),
        }
    }

    /// The lines of a capture with this first word, each with where it stands in the list.
    fn lines<'a>(&'a self, capture: &Capture, word: &'a str) -> impl Iterator<Item = (u64, String)> + 'a {
        let (mut reader, mut at) = (reader(&self.file, capture.lines.clone()), capture.lines.start);
        let all = std::iter::from_fn(move || {
            let (start, line) = (at, next_line(&mut reader));
            at += line.len() as u64;
            Some((start, line)).filter(|(_, line)| !line.is_empty())
        });
        all.filter(move |(_, line)| line.strip_prefix(word).map_or(false, |rest| rest.starts_with('\t')))
    }

    /// The frames of a capture, each with where it stands in the list and in the capture.
    pub fn frames<'a>(&'a self, capture: &Capture) -> impl Iterator<Item = (u64, String, Vec<u8>)> + 'a {
        self.lines(capture, "frame").map(|(at, line)| match Line::of(&line) {
            Ok(Line::Frame(place, octets)) => (at, place.to_string(), octets),
            _ => changed(),
        })
    }

    /// The frame that stands here in the list.
    pub fn frame_at(&self, at: u64) -> Vec<u8> {
        let mut reader = BufReader::with_capacity(1 << 10, Section { file: &self.file, left: at..u64::MAX });
        match Line::of(&next_line(&mut reader)) {
            Ok(Line::Frame(_, octets)) => octets,
            _ => changed(),
        }
    }

    /// The KISS packets of a capture, each with where it stands, its octets, and how captures.py read it.
    pub fn packets<'a>(&'a self, capture: &Capture) -> impl Iterator<Item = (String, Vec<u8>, kiss::Read)> + 'a {
        self.lines(capture, "packet").map(|(_, line)| match Line::of(&line) {
            Ok(Line::Packet(place, octets, read)) => (place.to_string(), octets, read),
            _ => changed(),
        })
    }

    /// How captures.py read those of them that a C0 closes.
    pub fn closed_packets<'a>(&'a self, capture: &Capture) -> impl Iterator<Item = kiss::Read> + 'a {
        self.packets(capture).filter(|(_, packet, _)| packet.len() > 1 && packet.ends_with(&[FEND])).map(|(_, _, read)| read)
    }

    /// The octets of a KISS log, in pieces.
    pub fn log<'a>(&'a self, capture: &Capture) -> impl Iterator<Item = Vec<u8>> + 'a {
        self.lines(capture, "log").map(|(_, line)| match Line::of(&line) {
            Ok(Line::Log(octets)) => octets,
            _ => changed(),
        })
    }

    /// What was passed over, and why.
    pub fn passed_over<'a>(&'a self, capture: &Capture) -> impl Iterator<Item = String> + 'a {
        self.lines(capture, "passed over").map(|(_, line)| match Line::of(&line) {
            Ok(Line::PassedOver(what)) => what.to_string(),
            _ => changed(),
        })
    }
}

/// The next line with its end, or nothing.
fn next_line(reader: &mut impl BufRead) -> String {
    let mut line = String::new();
    if reader.read_line(&mut line).is_err() {
        changed();
    }
    line
}

/// Every line was looked at before.
fn changed() -> ! {
    crate::refuse("the list of captures was changed while it was read, or can't be read any more")
}

impl Capture {
    /// Whether more lines may follow this one.
    fn take(&mut self, line: Line) -> bool {
        match line {
            Line::Frame(..) => self.frames += 1,
            Line::Packet(..) => self.packets += 1,
            Line::Log(octets) => *self.log.get_or_insert(0) += octets.len() as u64,
            Line::PassedOver(what) => {
                self.passed_over += 1;
                if self.notes.len() < NOTES {
                    self.notes.push(what.to_string());
                }
            }
            Line::End(digest, octets) => {
                self.digest = Some((digest.to_string(), octets));
                return false;
            }
            Line::Capture(..) | Line::Refused(..) => {}
        }
        true
    }
}
