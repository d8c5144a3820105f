//! `compare test`: every class of inputs, each through its comparison.

use crate::check::{self, padded, Both, Checker, Difference, Stretch};
use crate::flat::{self, FlatAddress, ONES};
use crate::links::{self, Pair};
use crate::list::List;
use crate::pairs::{self, Desk, Way};
use crate::parts::{self, Call, Day, Part};
use crate::port::{Beside, Link, State, FRESH};
use crate::progress::Part as Passed;
use crate::relays::{self, Own};
use crate::report::{self, Line, Report};
use crate::rng::Rng;
use crate::seen::{Followed, Records};
use crate::show;
use crate::{inputs, kiss, packets, records, streams, texts};
use ax25::frame::Ax25Frame;

/// A class under way.
pub struct Class<'a> {
    pub checker: &'a mut Checker,
    report: &'a mut Report,
    line: Line,
}

/// Runs one class and prints its line.
pub fn class(checker: &mut Checker, report: &mut Report, name: &str, body: impl FnOnce(&mut Class)) {
    if report.only.as_ref().map_or(false, |only| !name.contains(only.as_str())) {
        return;
    }
    checker.seen.class(name);
    let line = Line { name: name.to_string(), inputs: 0, mismatches: 0, written: 0 };
    let mut class = Class { checker, report, line };
    body(&mut class);
    class.made_calls(true);
    let line = class.line;
    report.class(line);
}

impl Class<'_> {
    fn done(&mut self, found: Vec<Difference>, input: impl FnOnce() -> (String, String)) {
        self.line.inputs += 1;
        self.differs(found, input);
        self.made_calls(false);
    }

    /// The calls over many inputs that are due by now, or all that are left.
    fn made_calls(&mut self, is_last: bool) {
        for call in self.checker.calls(is_last) {
            self.called(&call);
        }
    }

    /// One call: each record in which something differs is a mismatch.
    fn called(&mut self, call: &Call) {
        let unlike = self.checker.call(call);
        if unlike.is_empty() {
            return;
        }
        let class = format!("compare test --only '{}'", self.line.name);
        for (which, found) in unlike {
            self.differs(found, || (call.words(which), call.again().unwrap_or_else(|| class.clone())));
        }
    }

    fn differs(&mut self, found: Vec<Difference>, input: impl FnOnce() -> (String, String)) {
        if !found.is_empty() {
            self.line.mismatches += 1;
            if !self.report.full() {
                let (input, again) = input();
                self.line.written += u64::from(self.report.mismatch(&self.line.name, input, again, found));
                self.checker.quiet = self.report.full();
            }
        }
    }

    /// So much more of the captures is compared.
    pub fn step(&mut self, part: Passed, count: usize) {
        self.report.progress.step(part, count);
    }

    pub fn octets(&mut self, input: &[u8]) {
        let found = self.checker.octets(input);
        self.done(found, || (show::hex(input), report::again("compare one", input)));
    }

    /// Octets that stand somewhere in a capture, and are passed on by each of their repeaters too.
    pub fn octets_at(&mut self, place: &str, input: &[u8]) {
        let mut found = self.checker.octets(input);
        found.extend(self.checker.relays(input));
        self.done(found, || (format!("{}: {}", place, show::hex(input)), report::again("compare one", input)));
    }

    /// One call over these parts of a buffer. Each record counts as one input.
    fn buffer(&mut self, buffer: &[u8], parts: impl IntoIterator<Item = Part>) {
        let parts: Vec<_> = parts.into_iter().map(|part| (part, self.checker.owed_of_part(buffer, &part))).collect();
        self.line.inputs += parts.len() as u64;
        self.called(&Call { buffer: buffer.to_vec(), parts });
    }

    /// One call over frames of a capture, and then each of them as it stands in the list. What the records owe is counted.
    pub fn day(&mut self, file: &str, day: &mut Day, frames: &mut dyn Iterator<Item = (u64, String, Vec<u8>)>, records: &mut Records) {
        let again = format!("compare captures '{}'", file);
        records.calls += 1;
        if !day.read() {
            let owed = "nothing else is written".to_string();
            let found = Difference { what: "lent storage".to_string(), owed, port: "something beside the records was written".to_string() };
            self.differs(vec![found], || (format!("{} frames in one call", day.len()), again.clone()));
        }
        let mut before = 0;
        for (at, (_, place, frame)) in frames.take(day.len()).enumerate() {
            let (owed, found) = self.checker.in_one_call(day, at, before, &frame);
            records.count(&owed);
            before += frame.len();
            self.done(found, || (format!("{}: {}", place, show::hex(&frame)), again.clone()));
            self.step(Passed::OneCall, 1);
        }
    }

    /// Octets off the air, passed on by the stations of their route and by others.
    fn relays(&mut self, input: &[u8], draw: &mut Rng) {
        let read = check::read_old(input);
        for own in relays::around(&read, draw) {
            self.relay(&own, input, &read);
        }
    }

    fn relay(&mut self, own: &Own, input: &[u8], read: &Result<Ax25Frame, u32>) {
        let found = self.checker.relay(own, input, read);
        self.done(found, || {
            let command = format!("compare relay '{}' {}", show::hex(&own.callsign), own.ssid);
            (format!("{} relays {}", own.words(), show::hex(input)), report::again(&command, input))
        });
    }

    /// A canonical input, and others beside it.
    pub fn pairs(&mut self, one: &[u8], others: &mut dyn Iterator<Item = (Way, Vec<u8>)>) {
        let one = self.checker.both(one);
        for (way, other) in others {
            let other = self.checker.both(&other);
            self.pair(way, &one, &other);
        }
    }

    /// A frame, which stands here in the list, as the radio desk meets it: beside an earlier one with the same frame and info, of which either may be canonical.
    pub fn at_desk(&mut self, desk: &mut Desk, frame: &[u8], at: u64, list: &List) {
        let frame = self.checker.both(frame);
        let earlier = match desk.earlier(&frame, at) {
            Some(place) => self.checker.both(&list.frame_at(place)),
            None => return,
        };
        if !desk.is_again(&earlier, &frame, at) {
            return;
        }
        match (earlier.canonical, frame.canonical) {
            (true, _) => self.pair(Way::Met, &earlier, &frame),
            (false, true) => self.pair(Way::Met, &frame, &earlier),
            // Of two that are not canonical nothing is said.
            (false, false) => desk.neither += 1,
        }
    }

    fn pair(&mut self, way: Way, one: &Both, other: &Both) {
        let found = self.checker.pair(way, one, other);
        self.done(found, || {
            let (one, other) = (show::hex(&one.octets), show::hex(&other.octets));
            (format!("{} and {}", one, other), format!("compare pair '{}' '{}'", one, other))
        });
    }

    fn beside(&mut self, input: &[u8], beside: &Beside) {
        let found = self.checker.beside(input, beside);
        self.done_beside(found, beside, || show::hex(input));
    }

    fn record_beside(&mut self, record: &[u8], info: &[u8], beside: &Beside) {
        let found = self.checker.record_beside(record, info, beside);
        self.done_beside(found, beside, || format!("record {} info {}", show::hex(record), show::hex(info)));
    }

    fn done_beside(&mut self, found: Vec<Difference>, beside: &Beside, input: impl FnOnce() -> String) {
        self.done(found, || {
            let order = if beside.output_first { "output, gap, input" } else { "input, gap, output" };
            let input = format!("{} with a gap of {} ({})", input(), beside.gap, order);
            (input, "compare test --only 'side by side'".to_string())
        });
    }

    fn record(&mut self, record: &[u8], info: &[u8]) {
        let found = self.checker.record(record, info);
        self.done(found, || {
            let (record, info) = (show::hex(record), show::hex(info));
            (format!("record {} info {}", record, info), format!("compare record '{}' '{}'", record, info))
        });
    }

    fn text(&mut self, text: &[u8]) {
        let found = self.checker.text(text);
        self.done(found, || (format!("text {}", show::text(text)), format!("compare text-hex '{}'", show::hex(text))));
    }

    fn parts(&mut self, callsign: &[u8], ssid: u8) {
        let found = self.checker.parts(callsign, ssid);
        self.done(found, || {
            let input = format!("callsign {} SSID {}", show::text(callsign), ssid);
            (input, format!("compare parts-hex '{}' {}", show::hex(callsign), ssid))
        });
    }

    fn print(&mut self, address: &[u8]) {
        let found = self.checker.print(address);
        self.done(found, || (format!("address {}", show::hex(address)), format!("compare print '{}'", show::hex(address))));
    }

    fn simple_ui(&mut self, source: &[u8], destination: &[u8], info: &[u8]) {
        let found = self.checker.simple_ui(source, destination, info);
        self.done(found, || {
            let (source, destination, info) = (show::hex(source), show::hex(destination), show::hex(info));
            let input = format!("source {} destination {} info {}", source, destination, info);
            (input, format!("compare simple-ui '{}' '{}' '{}'", source, destination, info))
        });
    }

    fn content(&mut self, content: &[u8]) {
        let found = self.checker.content(content);
        self.done(found, || (format!("content {}", show::hex(content)), format!("compare content '{}'", show::hex(content))));
    }

    fn content_record(&mut self, content: &[u8], info: &[u8]) {
        let found = self.checker.content_record(content, info);
        self.done(found, || {
            let (content, info) = (show::hex(content), show::hex(info));
            (format!("flat content {} info {}", content, info), format!("compare content-record '{}' '{}'", content, info))
        });
    }

    fn hops(&mut self, record: &[u8]) {
        let found = self.checker.hops(record);
        self.done(found, || (format!("record {}", show::hex(record)), format!("compare hops '{}'", show::hex(record))));
    }

    fn same_station(&mut self, one: &[u8], other: &[u8]) {
        let found = self.checker.same_station(one, other);
        self.done(found, || {
            let (one, other) = (show::hex(one), show::hex(other));
            (format!("addresses {} and {}", one, other), format!("compare same-station '{}' '{}'", one, other))
        });
    }

    fn packet(&mut self, packet: &[u8]) {
        let found = self.checker.packet(packet);
        self.done(found, || (format!("KISS packet {}", show::hex(packet)), report::again("compare kiss", packet)));
    }

    /// A packet that stands somewhere in a capture, and is read so by captures.py.
    pub fn packet_at(&mut self, place: &str, packet: &[u8], said: &kiss::Read) {
        let found = self.checker.captured_packet(packet, said);
        self.done(found, || (format!("{}: {}", place, show::hex(packet)), report::again("compare kiss", packet)));
    }

    fn written_packet(&mut self, port: u8, data: &[u8]) {
        let found = self.checker.written_packet(port, data);
        self.done(found, || {
            let command = format!("compare kiss-write {}", port);
            (format!("port {} data {}", port, show::hex(data)), report::again(&command, data))
        });
    }

    fn packet_beside(&mut self, packet: &[u8], beside: &Beside) {
        let found = self.checker.packet_beside(packet, beside);
        self.done_beside(found, beside, || format!("KISS packet {}", show::hex(packet)));
    }

    fn stream(&mut self, octets: &[u8], cut: Vec<usize>) {
        let cuts = [cut];
        let found = self.checker.stream(&FRESH, octets, &cuts);
        self.done(found, || {
            let lengths = cuts[0].iter().map(usize::to_string).collect::<Vec<_>>().join(",");
            let input = format!("KISS stream in pieces of {}: {}", lengths, show::hex(octets));
            (input, report::again(&format!("compare kiss-stream {}", lengths), octets))
        });
    }

    /// A KISS log of this length, which may be long, in pieces, and how captures.py read its packets. It is read up to the first
    /// stretch in which something differs.
    pub fn stream_of(&mut self, file: &str, length: u64, log: &mut dyn Iterator<Item = Vec<u8>>, said: &mut dyn Iterator<Item = kiss::Read>) {
        let (mut draw, mut state, mut at, mut found, mut octets) = (Rng::new(length), FRESH, 0, Vec::new(), Vec::new());
        for next in streams::stretches(log) {
            octets = next;
            let cuts = [vec![1], streams::cut_to(10, &mut draw), streams::cut_to(400, &mut draw)];
            let end = at + octets.len() as u64;
            found = self.checker.captured_stretch(&mut state, &Stretch { at, octets: &octets }, end == length, &cuts, said);
            self.step(Passed::Log, octets.len());
            if !found.is_empty() {
                break;
            }
            at = end;
        }
        self.done(found, || {
            // Those of a longer one are in the file, and what differs says where.
            let shown = if length <= report::SHORT as u64 { format!(": {}", show::hex(&octets)) } else { String::new() };
            (format!("all its {} octets{}", length, shown), format!("compare captures '{}'", file))
        });
    }

    fn stream_from(&mut self, start: &State, octets: &[u8], cut: Vec<usize>) {
        let cuts = [cut];
        let found = self.checker.stream(start, octets, &cuts);
        self.done(found, || {
            let input = format!("{} and then {} in pieces of {:?}", show::state(start), show::hex(octets), cuts[0]);
            (input, "compare test --only 'states that no call made'".to_string())
        });
    }

    /// A frame offered to the record of a link, and the record that the port leaves.
    fn link(&mut self, link: &Link, frame: &[u8]) -> Link {
        self.link_at("", link, frame, &links::read(frame))
    }

    /// The same of a frame that stands somewhere in a capture, and is read so.
    fn link_at(&mut self, place: &str, link: &Link, frame: &[u8], read: &links::Read) -> Link {
        let (left, found) = self.checker.link(link, frame, read);
        self.done(found, || {
            let command = format!("compare link '{}'", show::hex(&link.octets()));
            (format!("{}{} is offered {}", place, show::link(link), show::hex(frame)), report::again(&command, frame))
        });
        left
    }

    /// The links of a capture, each followed from a fresh record through all its frames. What their records come to is counted.
    pub fn links(&mut self, file: &str, pairs: &[Pair], frames: impl Iterator<Item = (u64, String, Vec<u8>)>, followed: &mut Followed) {
        let mut records: Vec<Link> = pairs.iter().map(|pair| links::fresh(pair.stations)).collect();
        for (_, place, frame) in frames {
            let (place, read) = (place + ": ", links::read(&frame));
            for link in &mut records {
                *link = self.link_at(&place, link, &frame, &read);
            }
            self.step(Passed::Links, 1);
        }
        for (link, pair) in records.iter().zip(pairs) {
            followed.count(link);
            let found = self.checker.link_counts(link, pair);
            self.differs(found, || (show::link(link), format!("compare captures '{}'", file)));
        }
    }

    fn other(&mut self, name: &str, found: Vec<Difference>) {
        self.done(found, || (name.to_string(), "compare test".to_string()));
    }

    /// A class of its own statement: it passes where nothing is missing, and nothing is there that is owed no more.
    fn missing(&mut self, missing: Vec<String>, stray: Vec<String>) {
        let says = |whats: Vec<String>, owed: &'static str, port: &'static str| {
            whats.into_iter().map(move |what| Difference { what, owed: owed.to_string(), port: port.to_string() })
        };
        let missing = says(missing, "met at least once in this run", "never met");
        let stray = says(stray, "never owed (document 02, M-109)", "what was owed is wrong, so that the port was held to it");
        let found = missing.chain(stray).collect();
        self.other("the whole run", found);
    }
}

/// Everything, the seeded classes `scale` times as large as by default.
pub fn test(scale: usize, seed: u64, mut report: Report) -> Report {
    let mut checker = Checker::new();
    let mut seeds = Rng::new(seed);
    octets(&mut checker, &mut report, scale, &mut seeds);
    frame_records(&mut checker, &mut report, scale, &mut seeds);
    side_by_side(&mut checker, &mut report, scale, seeds.next());
    contents(&mut checker, &mut report, scale, &mut seeds);
    hops_and_stations(&mut checker, &mut report, scale, &mut seeds);
    address_texts(&mut checker, &mut report, scale, &mut seeds);
    frames_passed_on(&mut checker, &mut report, scale, &mut seeds);
    kiss_packets(&mut checker, &mut report, scale, &mut seeds);
    kiss_streams(&mut checker, &mut report, scale, &mut seeds);
    unseen(&mut checker, &mut report, scale, &mut seeds);
    parts_of_buffers(&mut checker, &mut report, scale, &mut seeds);
    links_followed(&mut checker, &mut report, scale, &mut seeds);
    if report.only.is_none() {
        let (missing, stray) = (checker.seen.missing(), checker.seen.stray());
        class(&mut checker, &mut report, "met: every number but 6, kind, mark, PID, layer 3 octet, reserved bits, route length, reason, part of a buffer, step of a link, room, search, old capture, due place, KISS port, cut, changed bit, pair, listed difference, and kind that the Rust does not know, at each entry", |c| c.missing(missing, stray));
    } else {
        println!("left out: met, which is of all classes together");
    }
    report::totals(&mut report, &checker.seen);
    report::pairs(&mut report, &checker.seen);
    report::told_apart(&mut report, &checker.seen);
    report.extra("seed", seed.to_string());
    report.extra("scale", scale.to_string());
    report
}

fn octets(checker: &mut Checker, report: &mut Report, scale: usize, seeds: &mut Rng) {
    let mut run = |name: &str, body: &mut dyn FnMut(inputs::Each)| {
        class(checker, report, name, |c| body(&mut |input| c.octets(input)));
    };
    let [a, b, c, d, e, f] = [0; 6].map(|_: u64| seeds.next());
    run("octets: every string of 0 to 2", &mut |each| inputs::short(each));
    run("octets: the example's addresses with every content of 2", &mut |each| inputs::framed(|each| inputs::pairs(each), each));
    run("octets: every control octet, content of 0 to 6", &mut |each| inputs::framed(|each| inputs::controls(a, each), each));
    run("octets: kinds that the Rust does not know, content of 1 to 300, 0 to 9 repeaters, nulls, spans", &mut |each| inputs::unknown(each));
    run("octets: FRMR, every flag, number and rejected control", &mut |each| inputs::framed(|each| inputs::frmr(each), each));
    run("octets: every pair of the first two SSID octets", &mut |each| inputs::ssid_pairs(each));
    run("octets: every octet at every address place, 0 to 9 repeaters", &mut |each| inputs::address_places(each));
    run("octets: every setting of the reserved bits in every two groups, 0 to 8 repeaters", &mut |each| inputs::reserved_bits(each));
    run("octets: leading nulls", &mut |each| inputs::leading_nulls(each));
    run("octets: first nonzero and first odd octet at each place of a search by eights", &mut |each| inputs::searches(each));
    run("octets: every prefix of good frames", &mut |each| inputs::prefixes(each));
    run("octets: every bit of good frames damaged", &mut |each| inputs::single_bits(each));
    run("octets: every two bits of good frames damaged", &mut |each| inputs::double_bits(each));
    run("octets: spans 1 to 100, content 0 to 8, nulls 0 to 3", &mut |each| inputs::spans(b, 250 * scale, each));
    run("octets: seeded frames around every boundary", &mut |each| inputs::frames(c, 1_800_000 * scale, each));
    run("octets: damaged copies", &mut |each| inputs::damaged(d, 1_200_000 * scale, each));
    run("octets: noise", &mut |each| inputs::noise(e, 600_000 * scale, each));
    run("octets: long inputs, to 131,074", &mut |each| inputs::long(f, each));
}

/// Every length of info to 100 with every gap to 40; then every PID of I and UI, the kinds that the Rust does not know with 0 to 40 octets
/// behind them, seeded frames, damaged ones, and inputs that each search refuses.
fn side_by_side(checker: &mut Checker, report: &mut Report, scale: usize, seed: u64) {
    class(checker, report, "octets: input and output side by side", |class| {
        for length in 0..=100 {
            let content = [&[0x03, 0xF0][..], &Rng::new(seed).octets(length)].concat();
            for input in [inputs::with_content(&content), inputs::with_repeaters(3, &content)] {
                for gap in 0..=40 {
                    class.beside(&input, &Beside { gap, output_first: false });
                    class.beside(&input, &Beside { gap, output_first: true });
                }
            }
        }
        let mut gaps = Rng::new(seed);
        let mut each = |input: &[u8]| class.beside(input, &Beside { gap: gaps.within(0, 40), output_first: gaps.chance(2) });
        for pid in 0..=255 {
            [0x00, 0x03].iter().for_each(|&control| each(&inputs::with_content(&[control, pid, 0x41])));
        }
        for length in 0..=40 {
            inputs::added(length, &mut |content| each(&inputs::with_content(content)));
        }
        inputs::frames(seed, 20_000 * scale, &mut each);
        inputs::damaged(seed, 10_000 * scale, &mut each);
        inputs::prefixes(&mut each);
        (0..=100).for_each(|length| each(&vec![0; length]));
    });
    class(checker, report, "records: those that the Rust can't hold, info and output side by side", |class| {
        let mut gaps = Rng::new(seed);
        records::seeded_unholdable(seed, 5_000 * scale, &mut |record, info| {
            class.record_beside(record, info, &Beside { gap: gaps.within(0, 40), output_first: gaps.chance(2) });
        });
    });
}

fn frame_records(checker: &mut Checker, report: &mut Report, scale: usize, seeds: &mut Rng) {
    let [a, b, c, d] = [0; 4].map(|_: u64| seeds.next());
    let mut run = |name: &str, body: &mut dyn FnMut(records::Each)| {
        class(checker, report, name, |c| body(&mut |record, info| c.record(record, info)));
    };
    run("records: every kind, mark, P/F, sequence numbers 0 to 255", &mut |each| records::sequence_numbers(each));
    run("records: every PID, layer 3 and unknown ones with every octet", &mut |each| records::pids(each));
    run("records: FRMR's fields", &mut |each| records::frmr_fields(each));
    run("records: every way to mark 0 to 8 repeaters, each kind", &mut |each| records::routes(each));
    run("records: every seven-bit character at every place", &mut |each| records::characters(each));
    run("records: every number as reserved bits at every place, 0 to 8 repeaters", &mut |each| records::reserved_bits(each));
    run("records: cut short", &mut |each| records::cut(d, each));
    run("records: seeded, as the Rust can hold them", &mut |each| records::holdable(a, 250_000 * scale, each));
    run("records: those that the Rust can't hold", &mut |each| {
        records::unholdable(each);
        records::seeded_unholdable(b, 60_000 * scale, each);
    });
    class(checker, report, "records: default", |c| {
        let found = c.checker.default();
        c.other("the default frame", found);
    });
    class(checker, report, "records: new_simple_ui_frame", |class| {
        let mut rng = Rng::new(c);
        for length in 0..=10 {
            class.simple_ui(&b"BOX123\x0C\x0278"[..length], &b"GAUGE7\x0D\x0189"[..10 - length], b"OK");
        }
        for number in 0..=255 {
            let reserved = |address: &[u8], reserved| [address, &[reserved]].concat();
            for other in 0..=ONES {
                class.simple_ui(&reserved(b"BOX123\x0C", number), &reserved(b"GAUGE7\x0D", other), b"OK");
                class.simple_ui(&reserved(b"BOX123\x0C", other), &reserved(b"GAUGE7\x0D", number), b"OK");
            }
        }
        for _ in 0..30_000 * scale {
            let (source, destination) = (records::any_address(&mut rng), records::any_address(&mut rng));
            let length = rng.within(0, 20);
            let info = rng.octets(length);
            class.simple_ui(&source, &destination, &info);
        }
    });
    class(checker, report, "records: buffers too short for what probe leaves there", |c| {
        for short in 0..crate::flat::FLAT {
            for input in [&inputs::FRAME[..], &[], b"BOX12-3"] {
                let found = c.checker.short_buffers(input, short);
                c.other("a short buffer", found);
            }
        }
    });
}

fn address_texts(checker: &mut Checker, report: &mut Report, scale: usize, seeds: &mut Rng) {
    let [a, b, c, d, e] = [0; 5].map(|_: u64| seeds.next());
    let mut run = |name: &str, body: &mut dyn FnMut(texts::Each)| {
        class(checker, report, name, |c| body(&mut |text| c.text(text)));
    };
    run("text: document 01's, and each rule's limits", &mut |each| {
        texts::DOCUMENT.iter().chain(&texts::LIMITS).for_each(|text| each(text.as_bytes()));
    });
    run("text: every one of 14 characters to length 5", &mut |each| texts::all(5, each));
    run("text: every octet at every place", &mut |each| texts::every_octet(each));
    run("text: every SSID", &mut |each| texts::ssids(each));
    run("text: seeded", &mut |each| texts::seeded(a, 300_000 * scale, each));
    run("text: octets of 128 and more", &mut |each| {
        texts::WIDE.iter().for_each(|text| each(text.as_bytes()));
        texts::wide(b, 100_000 * scale, each);
    });
    class(checker, report, "from_parts", |class| texts::parts(c, 200_000 * scale, &mut |callsign, ssid| class.parts(callsign, ssid)));
    class(checker, report, "from_parts: octets of 128 and more", |class| {
        texts::wide_parts(d, 50_000 * scale, &mut |callsign, ssid| class.parts(callsign, ssid));
    });
    class(checker, report, "printing", |class| texts::addresses(e, 200_000 * scale, &mut |address| class.print(address)));
}

fn contents(checker: &mut Checker, report: &mut Report, scale: usize, seeds: &mut Rng) {
    let [a, b, c] = [0; 3].map(|_: u64| seeds.next());
    let mut run = |name: &str, body: &mut dyn FnMut(inputs::Each)| {
        class(checker, report, name, |c| body(&mut |content| c.content(content)));
    };
    run("content alone: every content of 2", &mut |each| inputs::pairs(each));
    run("content alone: every control octet, content of 0 to 6", &mut |each| inputs::controls(a, each));
    run("content alone: kinds that the Rust does not know, content of 1 to 300", &mut |each| {
        (0..300).for_each(|length| inputs::added(length, each));
    });
    run("content alone: seeded", &mut |each| inputs::seeded_contents(b, 60_000 * scale, each));
    class(checker, report, "content written alone: each kind, its fields, cut short, info where there is none", |class| {
        records::contents(c, 20_000 * scale, &mut |content, info| class.content_record(content, info));
    });
}

fn hops_and_stations(checker: &mut Checker, report: &mut Report, scale: usize, seeds: &mut Rng) {
    let [a, b] = [0; 2].map(|_: u64| seeds.next());
    class(checker, report, "hops: every way to mark eight places with every count, seeded, cut short", |class| {
        let mut each = |record: &[u8], _: &[u8]| class.hops(record);
        records::marks(&mut each);
        records::holdable(a, 5_000 * scale, &mut each);
        records::cut(a, &mut each);
    });
    class(checker, report, "same station: each octet changed, every two SSIDs, every two reserved numbers, seeded", |class| {
        texts::stations(b, 30_000 * scale, &mut |one, other| class.same_station(one, other));
    });
}

/// Most inputs are relayed by several stations, and each relay counts as one.
fn frames_passed_on(checker: &mut Checker, report: &mut Report, scale: usize, seeds: &mut Rng) {
    let [a, b, c, d, e, draws, f] = [0; 7].map(|_: u64| seeds.next());
    let mut draw = Rng::new(draws);
    let mut run = |name: &str, body: &mut dyn FnMut(inputs::Each)| {
        class(checker, report, name, |c| body(&mut |input| c.relays(input, &mut draw)));
    };
    run("relay: every way to mark 0 to 8 repeaters, and what would be repeaters behind them", &mut |each| inputs::marks(each));
    run("relay: every octet at every address place, 0 to 9 repeaters", &mut |each| inputs::address_places(each));
    run("relay: every setting of the reserved bits in every two groups, 0 to 8 repeaters", &mut |each| inputs::reserved_bits(each));
    run("relay: two repeaters and every control octet, content of 0 to 6", &mut |each| {
        inputs::controls(a, &mut |content| each(&inputs::with_repeaters(2, content)));
    });
    run("relay: kinds that the Rust does not know, content of 1 to 300, 0 to 9 repeaters, nulls, spans", &mut |each| inputs::unknown(each));
    run("relay: leading nulls, prefixes, every bit damaged, long inputs", &mut |each| {
        inputs::leading_nulls(each);
        inputs::prefixes(each);
        inputs::single_bits(each);
        inputs::long(b, each);
    });
    let mut order = Rng::new(f);
    run("relay: seeded frames around every boundary", &mut |each| {
        inputs::frames(c, 120_000 * scale, &mut |input| each(&inputs::marks_in_order(input, &mut order)));
    });
    run("relay: damaged copies", &mut |each| {
        inputs::damaged(d, 100_000 * scale, &mut |input| each(&inputs::marks_in_order(input, &mut order)));
    });
    class(checker, report, "relay: own addresses, every octet at every place, every SSID, lengths 0 to 12", |class| {
        let content = [0x03, 0xF0, 0x41];
        let mut each = |own: &Own, address: &FlatAddress| {
            let input = inputs::with_repeater(address, &content);
            class.relay(own, &input, &check::read_old(&input));
        };
        texts::addresses(e, 20_000 * scale, &mut |address| each(&Own::of(&padded(address)), &padded(address)));
        for length in 0..=12 {
            each(&Own::new(&b"BOX12 BOX12 "[..length], 0), &flat::station(b"BOX12 \0"));
        }
    });
}

fn kiss_packets(checker: &mut Checker, report: &mut Report, scale: usize, seeds: &mut Rng) {
    let [a, b, c, d, e] = [0; 5].map(|_: u64| seeds.next());
    let mut run = |name: &str, body: &mut dyn FnMut(inputs::Each)| {
        class(checker, report, name, |c| body(&mut |packet| c.packet(packet)));
    };
    run("KISS: every string of ten octets to length 3, and to 6 behind C0", &mut |each| packets::short(each));
    run("KISS: every octet at every place of short packets", &mut |each| packets::every_octet(each));
    run("KISS: seeded packets", &mut |each| packets::seeded(a, 30_000 * scale, each));
    run("KISS: damaged copies", &mut |each| packets::damaged(b, 60_000 * scale, each));
    class(checker, report, "KISS: written, every port, seeded data, and long data to 131,074", |class| {
        let mut draw = Rng::new(c);
        for port in 0..=255 {
            (0..30 * scale).for_each(|_| class.written_packet(port, &packets::data(&mut draw)));
        }
        packets::long(d, |port, data| class.written_packet(port, data));
    });
    class(checker, report, "KISS: packet and data side by side", |class| {
        let mut gaps = Rng::new(e);
        let mut each = |packet: &[u8]| class.packet_beside(packet, &Beside { gap: gaps.within(0, 40), output_first: gaps.chance(2) });
        packets::seeded(e, 10_000 * scale, &mut each);
        packets::damaged(e, 10_000 * scale, &mut each);
    });
}

fn kiss_streams(checker: &mut Checker, report: &mut Report, scale: usize, seeds: &mut Rng) {
    let [a, b, c, d, cuts] = [0; 5].map(|_: u64| seeds.next());
    let mut draw = Rng::new(cuts);
    class(checker, report, "KISS streams: every string of ten octets to length 3, and to 6 behind C0, in pieces", |class| {
        packets::short(&mut |octets| class.stream(octets, streams::cut(&mut draw)));
    });
    class(checker, report, "KISS streams: packets of every sort, noise and damage, in pieces", |class| {
        streams::seeded(a, 4_000 * scale, &mut |octets| class.stream(octets, streams::cut(&mut draw)));
        streams::seeded(b, 200 * scale, &mut |octets| class.stream(octets, vec![1]));
    });
    class(checker, report, "KISS streams: data around 1,024 octets, and more to drop than is counted", |class| {
        streams::long(c, |octets, cut| class.stream(octets, cut));
        class.stream(&streams::many_dropped(), vec![1000, 1, 30]);
    });
    class(checker, report, "KISS streams: from states that no call made", |class| {
        let mut starts = Rng::new(d);
        streams::seeded(d, 1_000 * scale, &mut |octets| {
            // What an empty piece does to such a state is not said.
            let cut = streams::cut(&mut draw).into_iter().map(|length| length.max(1)).collect();
            class.stream_from(&streams::unmade(&mut starts), octets, cut);
        });
    });
}

/// Canonical inputs beside others. All of them go through the comparison with the Rust first, in classes of their own, so that those of
/// pairs find by themselves what they are there for.
fn unseen(checker: &mut Checker, report: &mut Report, scale: usize, seeds: &mut Rng) {
    let [a, b] = [0; 2].map(|_: u64| seeds.next());
    let mut run = |name: &str, body: &dyn Fn(pairs::Each)| {
        class(checker, report, &format!("octets: {}", name), |class| {
            body(&mut |one, others| {
                class.octets(one);
                others.for_each(|(_, other)| class.octets(&other));
            });
        });
        class(checker, report, &format!("unseen: {}", name), |class| body(&mut |one, others| class.pairs(one, others)));
    };
    run("every bit of canonical frames", &|each| pairs::every_bit(a, each));
    run("canonical frames beside others", &|each| pairs::seeded(b, 30_000 * scale, each));
}

/// One call over parts of a buffer that are more than inputs laid one behind the other.
fn parts_of_buffers(checker: &mut Checker, report: &mut Report, scale: usize, seeds: &mut Rng) {
    let seed = seeds.next();
    class(checker, report, "parts: every start and length of short buffers, and those around the largest numbers", |class| {
        let contents = inputs::contents().into_iter().take(inputs::CONTENTS);
        let among = contents.map(|content| [&[0x00, 0x61], &inputs::with_content(&content)[..], &[0x03, 0xF0, 0x00]].concat());
        for buffer in [vec![], vec![0x00], vec![0x03]].into_iter().chain(among) {
            let all = parts::every(0..=buffer.len() + 2);
            class.buffer(&buffer, all.iter().rev().copied());
            class.buffer(&buffer, all);
            class.buffer(&buffer, parts::every(parts::around(buffer.len())));
        }
    });
    class(checker, report, "parts: lists of 0 to 100 records, each sort of part the first and the last of one, and of 65,537 in a long buffer", |class| {
        let lists = |before: usize, counts: &mut dyn Iterator<Item = usize>, class: &mut Class| {
            let mut buffer = vec![0x42; before];
            let mut all: Vec<Part> = inputs::good_frames().iter().map(|frame| parts::laid(&mut buffer, frame)).collect();
            all.extend(parts::every([0, buffer.len(), buffer.len() + 1]));
            for count in counts {
                for turn in 0..if count <= 2 { all.len() } else { 1 } {
                    class.buffer(&buffer, (0..count).map(|i| all[(turn + count * count + i) % all.len()]));
                }
            }
        };
        lists(0, &mut (0..=100).chain([255, 256, 257]), class);
        lists(1 << 16, &mut [257, 65_537].into_iter(), class);
    });
    class(checker, report, "parts: seeded, overlapping, repeated, in any order", |class| {
        let mut draw = Rng::new(seed);
        for _ in 0..2_000 * scale {
            let (buffer, records) = parts::seeded(&mut draw);
            class.buffer(&buffer, records);
        }
    });
}

/// Frames offered to the records of links.
fn links_followed(checker: &mut Checker, report: &mut Report, scale: usize, seeds: &mut Rng) {
    let [a, b, c, d] = [0; 4].map(|_: u64| seeds.next());
    class(checker, report, "links: every state with every kind from every sender, and every N(S) with every number expected", |class| {
        links::every(a, |link, frame| {
            class.link(link, frame);
        });
    });
    class(checker, report, "links: records that no call made, and refusals in their order", |class| {
        links::unmade(b, 100_000 * scale, |link, frame| {
            class.link(link, frame);
        });
    });
    class(checker, report, "links: seeded recordings, and one of more frames than are counted", |class| {
        let mut draw = Rng::new(c);
        let mut follow = |frames: usize| {
            let mut link = links::fresh(links::stations(&mut draw));
            for _ in 0..frames {
                link = class.link(&link, &links::next(&link, &mut draw));
            }
        };
        (0..1_000 * scale).for_each(|_| follow(100));
        follow(links::MOST as usize + 5);
    });
    class(checker, report, "links: octets off the air, between the stations that they name", |class| {
        let mut draw = Rng::new(d);
        let mut each = |input: &[u8]| {
            class.link(&links::around(input, &mut draw), input);
        };
        inputs::good_frames().iter().for_each(|frame| each(frame));
        inputs::leading_nulls(&mut each);
        inputs::frames(d, 60_000 * scale, &mut each);
        inputs::damaged(d, 60_000 * scale, &mut each);
        inputs::noise(d, 2_000 * scale, &mut each);
    });
}
