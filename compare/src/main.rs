//! The Rust crate ax25 0.4.0 and the port in one process: the same inputs, and every answer compared.

mod bench;
mod capture;
mod check;
mod classes;
mod differences;
mod domain;
#[cfg(feature = "faults")]
mod faults;
mod flat;
mod inputs;
mod kiss;
mod lent;
mod lines;
mod links;
mod list;
mod oracle;
mod packets;
mod pairs;
mod parts;
mod port;
mod progress;
mod reasons;
mod records;
mod relay_list;
mod relays;
mod replay;
mod report;
mod rng;
mod seen;
mod show;
mod single;
mod streams;
mod texts;

use differences::Differences;
use list::List;
use pairs::Desk;
use parts::Part;
use port::{Link, LINK};
use progress::Progress;
use relays::Own;
use report::Report;
use std::io::Read;
use std::process::exit;

/// The kit's emulator stops at a program that opens /proc/self/maps. Rust's standard library does that at its start to
/// find the main thread's stack, by this function of the C library; 38 is ENOSYS, and it then does without.
#[no_mangle]
extern "C" fn pthread_getattr_np(_thread: usize, _attributes: *mut u8) -> i32 {
    38
}

extern "C" {
    fn signal(number: i32, handler: usize) -> usize;
}

/// Has a reader of the output who goes away end this program quietly, as he ends others: by the signal. Rust's standard library sets the
/// signal aside before `main`, and `println!` then panics.
fn end_with_the_reader() {
    const SIGPIPE: i32 = 13;
    const DEFAULT: usize = 0;
    unsafe { signal(SIGPIPE, DEFAULT) };
}

const USAGE: &str = "\
compare test [SCALE]               every class of inputs; the seeded ones SCALE times as large (1)
compare captures [--raw FILE | FILE]..
                                   every frame and KISS packet of captures, the frames of each in one call, its links, every KISS
                                   log as a stream, frames beside one another:
                                   pcap and pcapng (link types 3 and 202), KISS logs, hex lines; --raw, or a file named
                                   .raw, .bin or .ax25: one raw frame
compare frames [FILE]              what captures.py, which reads the captures, prints, in a file or on standard input
compare one HEX                    one input: both answers in full, the port's as an old capture too ('-': hex on standard input)
compare buffer START,LENGTH.. HEX  parts of a buffer, read in one call ('-': hex on standard input)
compare pair HEX HEX               a canonical input and another: where they differ, and whether that is seen
compare text TEXT..                texts to addresses (text-hex HEX..: the text's octets)
compare parts-hex HEX SSID         a callsign and an SSID to an address
compare print HEX                  an address of eight flat octets, printed
compare record HEX INFO            a flat record and info (hex), written
compare simple-ui HEX HEX INFO     source, destination, info (hex): new_simple_ui_frame
compare content HEX                content alone, from its control octet on
compare content-record HEX INFO    flat content (a record's last twelve octets) and info (hex), written alone
compare hops HEX                   the hops of a flat record
compare same-station HEX HEX       two addresses of eight flat octets
compare relay HEX SSID HEX         our own callsign and SSID, and a frame to pass on ('-': hex on standard input)
compare kiss HEX                   a KISS packet, read ('-': hex on standard input)
compare kiss-write PORT HEX        a port and data, written as a KISS packet ('-': hex on standard input)
compare kiss-stream LENGTHS HEX    a stream of KISS packets, cut by these lengths, as 3,1,5, in turn ('-': hex on standard input)
compare link HEX HEX               the 56 octets of a link's record, and a frame that it is offered ('-': hex on standard input)
compare bench                      times of both, and their ratios
compare replay-list [N]            about N (5000) lines of the Rust's answers, for the program replay
  --json FILE    leave counts, mismatches and ratios there (test, captures, frames, bench)
  --differences FILE
                 leave every mismatch there, up to 50 MB (test, frames)
  --seed N       another seed for test
  --only WORDS   only the classes of test with these words in their name
  --of N         say on standard error how many of N frames are compared (frames)
  --remember N   put frames beside N different ones before them at most (1800000; frames)
Exit status: 0 no difference but listed ones, 1 some other difference, 2 something could not be read.";

/// The options of each mode that has some.
const OPTIONS: [(&str, &[&str]); 3] = [
    ("test", &["--json", "--differences", "--seed", "--only"]),
    ("frames", &["--json", "--differences", "--of", "--remember"]),
    ("bench", &["--json"]),
];

struct Options {
    words: Vec<String>,
    json: Option<String>,
    differences: Option<String>,
    seed: u64,
    only: Option<String>,
    of: Option<u64>,
    remember: usize,
}

fn refuse(message: &str) -> ! {
    eprintln!("compare: {}", message);
    exit(2)
}

fn options() -> Options {
    let mut options = Options { words: Vec::new(), json: None, differences: None, seed: 25, only: None, of: None, remember: Desk::MOST };
    let mut given = Vec::new();
    let mut args = std::env::args_os().skip(1).map(word);
    while let Some(arg) = args.next() {
        let mut value = || args.next().unwrap_or_else(|| refuse(&format!("{} wants a value", arg)));
        match arg.as_str() {
            "--json" => options.json = Some(value()),
            "--differences" => options.differences = Some(value()),
            "--seed" => options.seed = number(&value()),
            "--only" => options.only = Some(value()),
            "--of" => options.of = Some(number(&value())),
            "--remember" => options.remember = number(&value()) as usize,
            // A text may start with hyphens.
            _ if arg.starts_with("--") && arg != "--help" && options.words.first().map_or(true, |mode| mode != "text") => {
                refuse(&format!("there is no option {}: 'compare help' lists them", arg))
            }
            _ => {
                options.words.push(arg);
                continue;
            }
        }
        given.push(arg);
    }
    if let Some(mode) = options.words.first() {
        let takes = |option: &str| OPTIONS.iter().any(|(name, options)| name == mode && options.contains(&option));
        if let Some(other) = given.iter().find(|option| !takes(option)) {
            refuse(&format!("{} takes no {}", mode, other));
        }
    }
    options
}

fn word(argument: std::ffi::OsString) -> String {
    argument.into_string().unwrap_or_else(|octets| refuse(&format!("{:?} is no UTF-8 (a text of any octets: text-hex)", octets)))
}

fn number(text: &str) -> u64 {
    text.parse().unwrap_or_else(|_| refuse(&format!("'{}' is no number", text)))
}

fn octet(what: &str, text: &str) -> u8 {
    u8::try_from(number(text)).unwrap_or_else(|_| refuse(&format!("{} is an octet", what)))
}

fn ssid_of(text: &str) -> u8 {
    octet("an SSID", text)
}

fn lengths_of(text: &str) -> Vec<usize> {
    let lengths: Vec<usize> = text.split(',').map(|length| number(length) as usize).collect();
    if lengths.iter().all(|&length| length == 0) {
        refuse("at least one of the lengths is over 0");
    }
    lengths
}

fn part_of(text: &str) -> Part {
    let (start, length) = text.split_once(',').unwrap_or_else(|| refuse(&format!("'{}' is no START,LENGTH", text)));
    Part { start: number(start) as usize, length: number(length) as usize }
}

fn link_of(hex: &str) -> Link {
    let octets = octets(hex);
    Link::of(octets[..].try_into().unwrap_or_else(|_| refuse(&format!("{} octets are no link's record: it has {}", octets.len(), LINK))))
}

fn octets(hex: &str) -> Vec<u8> {
    show::unhex(hex).unwrap_or_else(|problem| refuse(&problem))
}

fn hex_argument(word: &str) -> Vec<u8> {
    if word != "-" {
        return octets(word);
    }
    octets(&standard_input())
}

fn standard_input() -> String {
    let mut text = String::new();
    if let Err(problem) = std::io::stdin().read_to_string(&mut text) {
        refuse(&format!("standard input: {}", problem));
    }
    text
}

fn leave(report: &Report, path: &Option<String>) {
    if let Some(path) = path {
        if let Err(problem) = std::fs::write(path, report.json()) {
            refuse(&format!("{}: {}", path, problem));
        }
    }
}

fn status(holds: bool) -> ! {
    exit(if holds { 0 } else { 1 })
}

fn main() {
    end_with_the_reader();
    let options = options();
    let words: Vec<&str> = options.words.iter().map(String::as_str).collect();
    match words[..] {
        ["test"] => test("1", &options),
        ["test", scale] => test(scale, &options),
        ["frames"] | ["frames", "-"] => frames(None, &options),
        ["frames", file] => frames(Some(file), &options),
        ["one", hex] => status(single::one(&hex_argument(hex))),
        ["buffer", ref parts @ .., hex] => {
            status(single::buffer(&hex_argument(hex), &parts.iter().map(|part| part_of(part)).collect::<Vec<_>>()))
        }
        ["pair", one, other] => status(single::pair(&octets(one), &octets(other))),
        ["text", ref texts @ ..] if !texts.is_empty() => status(single::each(texts, |t| single::text(t.as_bytes()))),
        ["text-hex", ref texts @ ..] if !texts.is_empty() => status(single::each(texts, |t| single::text(&octets(t)))),
        ["parts-hex", callsign, ssid] => status(single::parts(&octets(callsign), ssid_of(ssid))),
        ["print", address] => status(single::print(&octets(address))),
        ["record", record, info] => status(single::record(&octets(record), &octets(info))),
        ["simple-ui", source, destination, info] => {
            status(single::simple_ui(&octets(source), &octets(destination), &octets(info)))
        }
        ["content", content] => status(single::content(&octets(content))),
        ["content-record", content, info] => status(single::content_record(&octets(content), &octets(info))),
        ["hops", record] => status(single::hops(&octets(record))),
        ["same-station", one, other] => status(single::same_station(&octets(one), &octets(other))),
        ["relay", callsign, ssid, frame] => {
            status(single::relay(&Own::new(&octets(callsign), ssid_of(ssid)), &hex_argument(frame)))
        }
        ["kiss", packet] => status(single::packet(&hex_argument(packet))),
        ["kiss-write", port, data] => status(single::written_packet(octet("a port", port), &hex_argument(data))),
        ["kiss-stream", lengths, octets] => status(single::stream(&hex_argument(octets), &lengths_of(lengths))),
        ["link", record, frame] => status(single::link(&link_of(record), &hex_argument(frame))),
        #[cfg(feature = "faults")]
        ["faults"] => faults::list(),
        ["bench"] => leave(&bench::run(), &options.json),
        ["replay-list"] => replay::list(5000),
        ["replay-list", lines] => replay::list(number(lines) as usize),
        ["help"] | ["-h"] | ["--help"] => println!("{}", USAGE),
        [] => refuse(&format!("usage:\n{}", USAGE)),
        _ => refuse(&format!("no mode takes these words: {}\nusage:\n{}", words.join(" "), USAGE)),
    }
}

fn frames(file: Option<&str>, options: &Options) -> ! {
    let report = begun(options);
    let list = List::open(file).unwrap_or_else(|problem| refuse(&problem));
    let mut report = capture::compare(&list, options.remember, report);
    leave(&report, &options.json);
    let holds = report.finish();
    if !list.refused.is_empty() {
        refuse(&format!("{} captures could not be read", list.refused.len()));
    }
    status(holds)
}

/// A report with nothing in it as yet. The file of differences is made anew first of all, so that one of an earlier run is not taken for
/// that of this one.
fn begun(options: &Options) -> Report {
    Report::new(options.only.clone(), Differences::at(&options.differences), Progress::of(options.of))
}

fn test(scale: &str, options: &Options) -> ! {
    let report = begun(options);
    let scale = number(scale) as usize;
    if !(1..=1000).contains(&scale) {
        refuse("SCALE is a number from 1 to 1000");
    }
    let mut report = classes::test(scale, options.seed, report);
    if report.lines.is_empty() {
        refuse("no class has such a name");
    }
    leave(&report, &options.json);
    status(report.finish())
}
