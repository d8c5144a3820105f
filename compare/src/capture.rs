//! The frames of captures, as captures.py reads them, compared; and what it could not read.

use crate::check::Checker;
use crate::classes::class;
use crate::links::Pairs;
use crate::list::{Capture, List};
use crate::pairs::{self, Desk};
use crate::parts::Day;
use crate::port::Port;
use crate::progress::Part;
use crate::report::{self, Report};
use crate::seen::{Followed, Records, Spellings};

/// What came of a capture's frames: by themselves, as one call read them, and of the links that were followed through them.
struct Counts {
    spellings: Spellings,
    in_one_call: Records,
    links: Followed,
}

/// Compares every frame and every KISS packet of every capture, its frames as one call reads them, its links, every KISS log as a stream, and
/// frames with so many different ones before them. Why a capture could not be read is printed.
pub fn compare(list: &List, remembered: usize, mut report: Report) -> Report {
    let mut checker = Checker::new();
    let mut desk = Desk::new(remembered);
    let mut counts = Vec::new();
    let (mut in_all, mut all_links) = (Records::default(), Followed::default());
    for capture in &list.captures {
        let before = checker.seen.spellings;
        let (in_one_call, links) = compare_one(&mut checker, &mut report, &mut desk, list, capture);
        in_all.add(&in_one_call);
        all_links.add(&links);
        counts.push(Counts { spellings: checker.seen.spellings.since(&before), in_one_call, links });
    }
    for (file, problem) in &list.refused {
        println!("REFUSED: {}: {}", file, problem);
    }
    report::totals(&mut report, &checker.seen);
    println!("frames of captures read in one call: {}", report::filled_words(&in_all));
    report.extra("in_one_call", report::object(&report::filled(&in_all)));
    println!("links followed through captures: {}", report::followed_words(&all_links));
    report.extra("links", report::followed(&all_links));
    println!("frames with a route, relayed by each of their repeaters: {}", checker.seen.relayed_routes);
    report::pairs(&mut report, &checker.seen);
    println!("frames with the frame and info of an earlier one: {}, neither of the two canonical: {}", desk.again, desk.neither);
    if desk.not_remembered > 0 {
        println!("frames beside which no later one was put, because enough others were remembered by then: {}", desk.not_remembered);
    }
    report.extra("frames_again", desk.again.to_string());
    report.extra("neither_canonical", desk.neither.to_string());
    report.extra("not_remembered", desk.not_remembered.to_string());
    println!("frames behind leading nulls, refused and read as old captures: {}", checker.seen.old_captures.nulled);
    report.extra("leading_nulls", checker.seen.old_captures.nulled.to_string());
    report.extra("relayed_routes", checker.seen.relayed_routes.to_string());
    report.extra("captures", report::list(list.captures.iter().zip(&counts).map(capture_json)));
    report.extra("refused_captures", report::list(list.refused.iter().map(refused_json)));
    report
}

fn capture_json((capture, counts): (&Capture, &Counts)) -> String {
    let null = || "null".to_string();
    let fields = [
        ("file", report::string(&capture.file)),
        ("format", report::string(&capture.format)),
        ("sha256", capture.digest.as_ref().map_or_else(null, |(digest, _)| report::string(digest))),
        ("octets", capture.digest.as_ref().map_or_else(null, |(_, octets)| octets.to_string())),
        ("frames", capture.frames.to_string()),
        ("packets", capture.packets.to_string()),
        ("passed_over", report::list(capture.notes.iter().map(|note| report::string(note)))),
        ("passed_over_more", (capture.passed_over - capture.notes.len() as u64).to_string()),
    ];
    let in_one_call = ("in_one_call", report::object(&report::filled(&counts.in_one_call)));
    let links = ("links", report::followed(&counts.links));
    report::object(&[&fields[..], &report::spelled(&counts.spellings), &[in_one_call, links]].concat())
}

fn refused_json((file, problem): &(String, String)) -> String {
    report::object(&[("file", report::string(file)), ("problem", report::string(problem))])
}

/// What the records owe that one call reads, and what the links come to.
fn compare_one(checker: &mut Checker, report: &mut Report, desk: &mut Desk, list: &List, capture: &Capture) -> (Records, Followed) {
    if capture.passed_over > 0 {
        list.passed_over(capture).for_each(|note| println!("passed over: {}: {}", capture.file, note));
    }
    class(checker, report, &format!("{} ({})", capture.file, capture.format), |class| {
        for (_, place, octets) in list.frames(capture) {
            class.octets_at(&place, &octets);
            class.step(Part::Frames, 1);
        }
    });
    let mut records = Records::default();
    class(checker, report, &format!("frames of {} ({}) in one call", capture.file, capture.format), |class| {
        let (mut frames, mut again) = (list.frames(capture).peekable(), list.frames(capture));
        loop {
            let mut day = Day::new();
            while let Some((_, _, frame)) = frames.next_if(|(_, _, frame)| day.has_room(frame)) {
                day.add(&frame);
            }
            class.day(&capture.file, &mut day, &mut again, &mut records);
            if frames.peek().is_none() {
                break;
            }
        }
    });
    let pairs = Pairs::of(list.frames(capture).map(|(_, _, frame)| frame));
    let mut links = Followed { not_followed: pairs.not_followed, ..Followed::default() };
    if !pairs.pairs.is_empty() {
        class(checker, report, &format!("links of {} ({})", capture.file, capture.format), |class| {
            class.links(&capture.file, &pairs.pairs, list.frames(capture), &mut links);
        });
    }
    class(checker, report, &format!("unseen: frames of {} ({}) beside one another", capture.file, capture.format), |class| {
        let mut port = Port::new();
        for (at, _, octets) in list.frames(capture) {
            pairs::beside_again(&mut port, &octets, &mut |one, others| class.pairs(one, others));
            class.at_desk(desk, &octets, at, list);
            class.step(Part::Beside, 1);
        }
    });
    if capture.packets > 0 {
        class(checker, report, &format!("KISS packets of {} ({})", capture.file, capture.format), |class| {
            for (place, octets, said) in list.packets(capture) {
                class.packet_at(&place, &octets, &said);
                class.step(Part::Packets, 1);
            }
        });
    }
    if let Some(length) = capture.log {
        class(checker, report, &format!("KISS stream of {} ({})", capture.file, capture.format), |class| {
            class.stream_of(&capture.file, length, &mut list.log(capture), &mut list.closed_packets(capture));
        });
    }
    (records, links)
}
