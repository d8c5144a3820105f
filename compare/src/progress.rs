//! How far the comparison of captures is, said on standard error: in place where that is a terminal, else a line now and then.

use std::io::Write;
use std::time::{Duration, Instant};

extern "C" {
    fn isatty(descriptor: i32) -> i32;
}

const STANDARD_ERROR: i32 = 2;

/// What is gone over, one after the other of each capture.
#[derive(Clone, Copy, PartialEq)]
pub enum Part {
    Frames,
    OneCall,
    Links,
    Beside,
    Packets,
    Log,
}

const PARTS: [(Part, &str); 6] = [
    (Part::Frames, "frames compared"),
    (Part::OneCall, "in one call"),
    (Part::Links, "offered to links"),
    (Part::Beside, "beside one another"),
    (Part::Packets, "KISS packets"),
    (Part::Log, "octets of KISS logs"),
];

#[derive(Default)]
pub struct Progress(Option<Said>);

struct Said {
    /// The frames of all captures.
    of: u64,
    done: [u64; PARTS.len()],
    in_place: bool,
    /// When it was last said.
    last: Option<Instant>,
    /// How many characters of it stand on the terminal's line.
    stand: usize,
}

impl Progress {
    /// Where it is not known how many frames there are, nothing is said.
    pub fn of(frames: Option<u64>) -> Progress {
        let in_place = unsafe { isatty(STANDARD_ERROR) } == 1;
        // On a terminal it is said at once.
        let last = if in_place { None } else { Some(Instant::now()) };
        Progress(frames.map(|of| Said { of, done: [0; PARTS.len()], in_place, last, stand: 0 }))
    }

    /// So many more are done.
    pub fn step(&mut self, part: Part, count: usize) {
        if let Some(said) = &mut self.0 {
            said.done[part as usize] += count as u64;
            let every = if said.in_place { Duration::from_millis(250) } else { Duration::from_secs(30) };
            if said.last.map_or(true, |last| last.elapsed() >= every) {
                said.say(part);
            }
        }
    }

    /// Takes it from the terminal, because something else is to be printed.
    pub fn clear(&mut self) {
        if let Some(said) = self.0.as_mut().filter(|said| said.stand > 0) {
            said.show(&format!("\r{:1$}\r", "", said.stand));
            said.stand = 0;
        }
    }
}

impl Said {
    /// The frames, and behind them the part that is gone over now. All of it fits a line of 80 characters.
    fn say(&mut self, part: Part) {
        let mut text = format!("compare: {} of {} {}", self.done[0], self.of, PARTS[0].1);
        if part != Part::Frames {
            text += &format!("; {}: {}", PARTS[part as usize].1, self.done[part as usize]);
        }
        if self.in_place {
            self.show(&format!("\r{:1$}", text, self.stand));
            self.stand = text.len();
        } else {
            self.show(&(text + "\n"));
        }
        self.last = Some(Instant::now());
    }

    /// Nothing hangs on whether this can be written.
    fn show(&self, text: &str) {
        let _ = std::io::stderr().write_all(text.as_bytes());
    }
}
