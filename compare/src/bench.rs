//! Times of the port and the Rust in one process, on the same inputs, in turns. Only their ratios say something, above all
//! where the program is emulated; no time is asserted.

use crate::check;
use crate::domain;
use crate::flat;
use crate::inputs;
use crate::oracle;
use crate::port::{bare, PLACES};
use crate::relays::{self, Own};
use crate::report::{self, Report};
use ax25::frame::Ax25Frame;
use std::time::{Duration, Instant};

const ROUNDS: usize = 150;
/// How long one round of one side takes, at least: so short that other programs on the host leave some rounds alone.
const ROUND: Duration = Duration::from_millis(1);

/// Makes the compiler believe that a value is used.
fn keep<T>(value: &T) {
    unsafe { std::arch::asm!("/* {0} */", in(reg) value, options(nostack, preserves_flags)) }
}

/// Something to be timed: the nanoseconds of one run, when it runs so many times.
fn timed(mut run: impl FnMut()) -> impl FnMut(u32) -> f64 {
    move |turns| {
        let start = Instant::now();
        for _ in 0..turns {
            run();
        }
        start.elapsed().as_nanos() as f64 / f64::from(turns)
    }
}

/// Nanoseconds of one run by each of its inputs, the best round of each side.
fn race<const N: usize>(inputs: usize, sides: [&mut dyn FnMut(u32) -> f64; N]) -> [f64; N] {
    let mut turns = [0; N];
    let mut best = [f64::MAX; N];
    for i in 0..N {
        turns[i] = calibrated(sides[i]);
    }
    for _ in 0..ROUNDS {
        for i in 0..N {
            best[i] = best[i].min(sides[i](turns[i]) / inputs as f64);
        }
    }
    best
}

/// How often something runs in one round. An emulator's first run translates the code, so the better of two tells.
fn calibrated(side: &mut dyn FnMut(u32) -> f64) -> u32 {
    let mut turns = 1;
    while side(turns).min(side(turns)) * f64::from(turns) < ROUND.as_nanos() as f64 / 4.0 {
        turns *= 2;
    }
    turns * 4
}

struct Case {
    name: &'static str,
    inputs: Vec<Vec<u8>>,
}

fn cases() -> Vec<Case> {
    let long_info = [&[0x03, 0xF0][..], &[0x41; 256]].concat();
    let mut with_route = inputs::before_the_last(8, &[0xA6, 0xF0]);
    with_route.resize(100, 0x42);
    let case = |name, input: Vec<u8>| Case { name, inputs: vec![input] };
    let mut all = vec![
        case("UI of 18 octets", inputs::FRAME.to_vec()),
        case("UI of 25 octets, 1 repeater", inputs::before_the_last(1, &inputs::FRAME[inputs::FIELD..])),
        case("I of 100 octets, 8 repeaters", with_route),
        case("UI with 256 octets of info", inputs::with_content(&long_info)),
        case("40 nulls, refused", vec![0; 40]),
    ];
    let mut mix = inputs::good_frames();
    mix.extend(all.iter().map(|case| case.inputs[0].clone()));
    all.push(Case { name: "a mix of all kinds", inputs: mix });
    all.push(case("UI of 18 octets behind 3 nulls", inputs::behind(3, &inputs::FRAME)));
    all
}

/// Times of the port and of the Rust by input.
type Call = fn(&[Vec<u8>]) -> [f64; 2];
const CALLS: [(&str, Call); 7] = [
    ("decode", decode),
    ("old capture", old_capture),
    ("read", read),
    ("canonical", canonical),
    ("reason", reason),
    ("length", length),
    ("re-encode", reencode),
];

pub fn run() -> Report {
    let mut report = Report::default();
    let mut rows = Vec::new();
    println!("{:<30} {:<11} {:>10} {:>10} {:>12}", "input", "call", "port ns", "Rust ns", "Rust / port");
    for case in cases() {
        for (name, call) in CALLS {
            row(&mut rows, case.name, name, call(&case.inputs), &[]);
        }
        if let Some([port, decode, rust]) = relay(&case.inputs) {
            row(&mut rows, case.name, "relay", [port, rust], &[("decode_ns", format!("{:.1}", decode))]);
        }
        if let Some([gross, reading, rust]) = encode(&case.inputs) {
            row(&mut rows, case.name, "encode", [gross - reading, rust], &[("gross_ns", format!("{:.1}", gross))]);
        }
    }
    report.extra("bench", report::list(rows.into_iter()));
    growth(&mut report);
    report
}

fn row(rows: &mut Vec<String>, input: &str, call: &str, [port, rust]: [f64; 2], more: &[(&str, String)]) {
    println!("{:<30} {:<11} {:>10.1} {:>10.1} {:>12.2}", input, call, port, rust, rust / port);
    let fields = [
        ("input", report::string(input)),
        ("call", report::string(call)),
        ("port_ns", format!("{:.1}", port)),
        ("rust_ns", format!("{:.1}", rust)),
        ("ratio", format!("{:.3}", rust / port)),
    ];
    rows.push(report::object(&[&fields, more].concat()));
}

fn decode(inputs: &[Vec<u8>]) -> [f64; 2] {
    beside_from_bytes(inputs, bare::decode)
}

fn old_capture(inputs: &[Vec<u8>]) -> [f64; 2] {
    beside_from_bytes(inputs, bare::decode_old_capture)
}

/// A call that gives a number alone.
fn beside_from_bytes(inputs: &[Vec<u8>], call: impl Fn(&[u8]) -> u32) -> [f64; 2] {
    let port = || inputs.iter().for_each(|input| keep(&call(input)));
    let rust = || inputs.iter().for_each(|input| keep(&Ax25Frame::from_bytes(input)));
    race(inputs.len(), [&mut timed(port), &mut timed(rust)])
}

/// A whole frame, which no exported call builds. The port also lays it out as a flat record.
fn read(inputs: &[Vec<u8>]) -> [f64; 2] {
    let (mut record, mut places) = ([0; flat::FLAT], [0; PLACES]);
    let port = move || inputs.iter().for_each(|input| keep(&bare::read(input, &mut record, &mut places)));
    let rust = || inputs.iter().for_each(|input| keep(&Ax25Frame::from_bytes(input)));
    race(inputs.len(), [&mut timed(port), &mut timed(rust)])
}

fn canonical(inputs: &[Vec<u8>]) -> [f64; 2] {
    beside_check(inputs, bare::canonical)
}

/// What the Rust's caller would do does not say why, only whether.
fn reason(inputs: &[Vec<u8>]) -> [f64; 2] {
    let (mut number, mut place) = (0, 0);
    beside_check(inputs, move |input| bare::reason(input, &mut number, &mut place))
}

/// The Rust has no canonical check: decoding, writing and comparing is what its caller would do.
fn beside_check(inputs: &[Vec<u8>], mut call: impl FnMut(&[u8]) -> u32) -> [f64; 2] {
    let port = move || inputs.iter().for_each(|input| keep(&call(input)));
    let rust = || {
        for input in inputs {
            keep(&Ax25Frame::from_bytes(input).map_or(false, |frame| frame.to_bytes() == *input));
        }
    };
    race(inputs.len(), [&mut timed(port), &mut timed(rust)])
}

/// How long re-encoding gets. The Rust has to write it to know.
fn length(inputs: &[Vec<u8>]) -> [f64; 2] {
    let port = || inputs.iter().for_each(|input| keep(&bare::reencoded_length(input)));
    let rust = || inputs.iter().for_each(|input| keep(&Ax25Frame::from_bytes(input).map_or(0, |frame| frame.to_bytes().len())));
    race(inputs.len(), [&mut timed(port), &mut timed(rust)])
}

fn reencode(inputs: &[Vec<u8>]) -> [f64; 2] {
    let mut output = vec![0; 1 << 16];
    let port = move || inputs.iter().for_each(|input| keep(&bare::reencode(input, &mut output)));
    let rust = || inputs.iter().for_each(|input| keep(&Ax25Frame::from_bytes(input).map(|frame| frame.to_bytes())));
    race(inputs.len(), [&mut timed(port), &mut timed(rust)])
}

/// So many copies of a frame are passed on in turn, after their marks were cleared: a processor that is to read octets just as one of
/// them was stored waits for that, which is no part of a relay.
const COPIES: usize = 64;

/// Passing a frame on, by the station that is due: the port's relay, its decode of the same frames, and the Rust; none where some input
/// is not to be passed on. The marks are cleared again before each run, so that each sets them. What that and the
/// going from frame to frame take is measured beside and taken off both of the port's times. The Rust has no relay: its caller would
/// decode the frame, set the mark in its route, and write it anew.
fn relay(inputs: &[Vec<u8>]) -> Option<[f64; 3]> {
    let copies = || inputs.iter().flat_map(|input| std::iter::repeat(input).take(COPIES)).map(|input| OnItsWay::of(input));
    let mut frames = copies().collect::<Option<Vec<_>>>()?;
    let received: Vec<_> = frames.iter().map(|frame| (frame.octets.clone(), frame.due)).collect();
    assert!(frames.iter_mut().all(|frame| frame.relay() == 0));
    let side = |mut call: fn(&mut OnItsWay)| {
        let mut frames: Vec<_> = copies().flatten().collect();
        timed(move || {
            frames.iter_mut().for_each(|frame| frame.octets[frame.mark] &= 0x7F);
            frames.iter_mut().for_each(&mut call);
        })
    };
    let mut relaying = side(|frame| keep(&frame.relay()));
    let mut decoding = side(|frame| keep(&bare::decode(&frame.octets)));
    let mut clearing = side(|frame| keep(&frame.octets));
    let rust = || {
        for (octets, due) in &received {
            keep(&Ax25Frame::from_bytes(octets).map(|mut frame| {
                frame.route[*due].has_repeated = true;
                frame.to_bytes()
            }));
        }
    };
    let [relay, decode, clear, rust] = race(received.len(), [&mut relaying, &mut decoding, &mut clearing, &mut timed(rust)]);
    Some([relay - clear, decode - clear, rust])
}

/// A frame, the place that is due, where its mark stands, and who is there.
struct OnItsWay {
    octets: Vec<u8>,
    due: usize,
    mark: usize,
    own: Own,
}

impl OnItsWay {
    fn of(input: &[u8]) -> Option<OnItsWay> {
        let frame = check::decoded(input).ok()?;
        let record = flat::of_frame(&frame);
        let [_, _, due] = domain::hops(&record);
        let own = relays::of_route(&frame).into_iter().nth(due)?;
        domain::relay(&record, &flat::repeater(&record, due)).ok()?;
        Some(OnItsWay { octets: input.to_vec(), due, mark: domain::mark_at(input, due), own })
    }

    fn relay(&mut self) -> u32 {
        bare::relay(&self.own.callsign, self.own.ssid, &mut self.octets)
    }
}

/// Writing what was decoded: the port with the reading of the flat record, that reading alone, and the Rust. A record with nine
/// repeaters is refused with 21 before anything else is looked at, so that its time is that of the reading: two of `probe`'s
/// calls read records, and the compiler leaves that a function of its own, which is done before the refusal. The row has the
/// first less the second.
fn encode(inputs: &[Vec<u8>]) -> Option<[f64; 3]> {
    let read: Vec<_> = inputs.iter().filter_map(|input| Some((input, check::decoded(input).ok()?))).collect();
    if read.is_empty() {
        return None;
    }
    let records: Vec<_> = read.iter().map(|(input, frame)| (oracle::record(input, frame), flat::info_of(frame).unwrap_or(&[]))).collect();
    let mut refused = records.clone();
    refused.iter_mut().for_each(|(record, _)| record[flat::COUNT] = 9);
    let rust = || read.iter().for_each(|(_, frame)| keep(&frame.to_bytes()));
    let times = race(read.len(), [&mut writing(&records, 0), &mut writing(&refused, 21), &mut timed(rust)]);
    Some(times)
}

/// The port's writing of records with their info, each of which gives this number.
fn writing<'a>(records: &'a [(flat::Flat, &[u8])], number: u32) -> impl FnMut(u32) -> f64 + 'a {
    let mut output = vec![0; 1 << 12];
    let mut length = [0];
    let mut write = move |(record, info): &(flat::Flat, &[u8])| bare::encode(record, info, &mut output, &mut length);
    records.iter().for_each(|record| assert_eq!(write(record), number));
    timed(move || records.iter().for_each(|record| keep(&write(record))))
}

fn nulls(size: usize) -> Vec<u8> {
    vec![0; size]
}

fn long_ui(size: usize) -> Vec<u8> {
    let mut input = inputs::FRAME.to_vec();
    input.resize(size, 0x41);
    input
}

/// Calls as the input grows: time by octet, and how that changes against the size before it.
fn growth(report: &mut Report) {
    const LONG: &str = "UI with long info";
    let sides: [(&str, Call, &str, fn(usize) -> Vec<u8>); 4] = [
        ("decode", decode, "nulls", nulls),
        ("decode", decode, LONG, long_ui),
        ("canonical", canonical, LONG, long_ui),
        ("re-encode", reencode, LONG, long_ui),
    ];
    let mut rows = Vec::new();
    for (name, call, input, make) in sides {
        println!();
        println!("{:<30} {:>8} {:>12} {:>12} {:>14} {:>14}", format!("{}, {}", name, input), "octets", "port ns", "Rust ns", "port ns/octet", "to the last");
        let mut last = None;
        for size in (6..=16).map(|power| 1 << power) {
            let [port, rust] = call(&[make(size)]);
            let by_octet = port / size as f64;
            let change = last.map_or("-".to_string(), |last: f64| format!("{:.2}", by_octet / last));
            println!("{:<30} {:>8} {:>12.1} {:>12.1} {:>14.3} {:>14}", "", size, port, rust, by_octet, change);
            last = Some(by_octet);
            rows.push(report::object(&[
                ("input", report::string(input)),
                ("call", report::string(name)),
                ("octets", size.to_string()),
                ("port_ns", format!("{:.1}", port)),
                ("rust_ns", format!("{:.1}", rust)),
            ]));
        }
    }
    report.extra("growth", report::list(rows.into_iter()));
}
