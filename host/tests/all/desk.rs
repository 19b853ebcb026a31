//! Where the tests call the library: every call between patterned bytes, every byte looked at afterwards.

use crate::reference::{self, Judged, WORK};
use katsunebyo::cipher::Call;
use katsunebyo::{hex, Answer};
use std::collections::BTreeSet;
use std::io::Write;
use std::time::Instant;

/// Patterned bytes on both sides of an output and of a work room.
const MARGIN: usize = 64;
/// The largest output room of a test.
pub const LARGEST_ROOM: usize = 16_384 + 64;
/// The largest work room of a test.
pub const LARGEST_WORK: usize = WORK + 96;

/// Counts the cases of a test and says so when it ends.
pub struct Cases {
    what: &'static str,
    count: u64,
    start: Instant,
    numbers: BTreeSet<u32>,
}

impl Cases {
    pub fn new(what: &'static str) -> Cases {
        Cases {
            what,
            count: 0,
            start: Instant::now(),
            numbers: BTreeSet::new(),
        }
    }

    pub fn one(&mut self) {
        self.count += 1;
    }

    /// One with the number that it answered.
    fn answered(&mut self, number: u32) {
        self.count += 1;
        self.numbers.insert(number);
    }

    /// Whether each of these numbers was answered, so that a row of cases is not all of one sort.
    pub fn saw(&self, numbers: &[u32]) {
        for number in numbers {
            assert!(self.numbers.contains(number), "{}: no {number}", self.what);
        }
    }

    /// Written to standard output itself: the test runner keeps back what `println!` prints.
    pub fn say(self) {
        assert!(self.count > 0, "{}: no case", self.what);
        let mut line = format!("    {:>8} cases  {}", self.count, self.what);
        line.push_str(&format!("  ({:.1} s)", self.start.elapsed().as_secs_f64()));
        if !self.numbers.is_empty() {
            let numbers: Vec<String> = self.numbers.iter().map(u32::to_string).collect();
            line.push_str(&format!("  answers {}", numbers.join(" ")));
        }
        line.push('\n');
        let _ = std::io::stdout().write_all(line.as_bytes());
    }
}

/// A buffer with a pattern that moves from call to call, and a room in its middle.
struct Buffer {
    bytes: Vec<u8>,
    turn: usize,
}

/// No two neighbours alike, no zero: a byte that was cleared, moved or written shows.
fn pattern(length: usize) -> Vec<u8> {
    (0..length).map(|at| (at % 251 + 1) as u8).collect()
}

impl Buffer {
    fn new(room: usize) -> Buffer {
        Buffer {
            bytes: vec![0; room + 2 * MARGIN],
            turn: 0,
        }
    }

    /// The pattern anew, from another start.
    fn lay(&mut self, patterned: &[u8]) {
        self.turn = (self.turn + 1) % 251;
        let length = self.bytes.len();
        self.bytes
            .copy_from_slice(&patterned[self.turn..self.turn + length]);
    }

    fn room(&mut self, length: usize) -> &mut [u8] {
        &mut self.bytes[MARGIN..MARGIN + length]
    }

    /// Whether all is as it was laid, but for the `changed` bytes at the room's front.
    fn kept(&self, patterned: &[u8], changed: usize) -> bool {
        let laid = &patterned[self.turn..self.turn + self.bytes.len()];
        self.bytes[..MARGIN] == laid[..MARGIN]
            && self.bytes[MARGIN + changed..] == laid[MARGIN + changed..]
    }
}

pub struct Desk {
    patterned: Vec<u8>,
    out: Buffer,
    work: Buffer,
    pub cases: Cases,
}

impl Desk {
    pub fn new(what: &'static str) -> Desk {
        Desk {
            patterned: pattern(LARGEST_WORK + 2 * MARGIN + 251),
            out: Buffer::new(LARGEST_ROOM),
            work: Buffer::new(LARGEST_WORK),
            cases: Cases::new(what),
        }
    }

    pub fn done(self) {
        self.cases.say();
    }

    /// A cipher entry in each room worth trying.
    pub fn cipher(&mut self, call: Call, suite: u64, arguments: &[Vec<u8>]) -> Judged {
        let judged = reference::cipher_entry(call.name(), suite, arguments);
        for room in rooms(&judged, 1024) {
            self.cipher_in(call, suite, arguments, &judged, room);
        }
        judged
    }

    fn cipher_in(
        &mut self,
        call: Call,
        suite: u64,
        arguments: &[Vec<u8>],
        judged: &Judged,
        room: usize,
    ) {
        let lent: Vec<&[u8]> = arguments.iter().map(Vec::as_slice).collect();
        let before = arguments.to_vec();
        self.out.lay(&self.patterned);
        let answer = call.answer(suite, &lent, self.out.room(room));
        let what = || {
            let arguments: Vec<_> = arguments.iter().map(|a| hex::encode(a)).collect();
            format!("{} {suite} {}", call.name(), arguments.join(" "))
        };
        self.compare(answer, judged, room, &what);
        assert!(before == arguments, "input changed: {}", what());
    }

    /// `katsu_prepare` in each room worth trying.
    pub fn prepare(&mut self, text: &[u8], list: &[u8]) -> Judged {
        let judged = reference::prepare_entry(text, list, WORK);
        for (turn, room) in rooms(&judged, 16_384).into_iter().enumerate() {
            self.prepare_in(text, list, &judged, room, WORK + 32 * turn);
        }
        judged
    }

    /// `katsu_prepare` with a room that holds every answer, for long rows of cases.
    pub fn prepare_once(&mut self, text: &[u8], list: &[u8]) -> Judged {
        let judged = reference::prepare_entry(text, list, WORK);
        self.prepare_in(text, list, &judged, 16_384, WORK);
        judged
    }

    /// `katsu_prepare` in a room and a work room of these sizes: its number.
    pub fn prepare_at(&mut self, text: &[u8], list: &[u8], room: usize, work: usize) -> u32 {
        let judged = reference::prepare_entry(text, list, work);
        self.prepare_in(text, list, &judged, room, work);
        reference::delivered(&judged, room).number
    }

    fn prepare_in(&mut self, text: &[u8], list: &[u8], judged: &Judged, room: usize, work: usize) {
        self.out.lay(&self.patterned);
        self.work.lay(&self.patterned);
        let answer =
            katsunebyo::prepare_answer(text, list, self.out.room(room), self.work.room(work));
        let what = || {
            format!(
                "prepare {} ({}), list {}, work room {work}",
                String::from_utf8_lossy(text),
                hex::encode(text),
                hex::encode(list)
            )
        };
        self.compare(answer, judged, room, &what);
        self.look_at_work(answer, work, &what);
    }

    /// `katsu_run` in each room worth trying.
    pub fn run(&mut self, image: &[u8], list: &[u8]) -> Judged {
        let judged = reference::run_entry(image, list, WORK);
        for (turn, room) in rooms(&judged, 1024).into_iter().enumerate() {
            self.run_in(image, list, &judged, room, WORK + 32 * turn);
        }
        judged
    }

    /// `katsu_run` with a room that holds every answer, for long rows of cases.
    pub fn run_once(&mut self, image: &[u8], list: &[u8]) -> Judged {
        let judged = reference::run_entry(image, list, WORK);
        self.run_in(image, list, &judged, 1024, WORK);
        judged
    }

    /// `katsu_run` in a room and a work room of these sizes: its number.
    pub fn run_at(&mut self, image: &[u8], list: &[u8], room: usize, work: usize) -> u32 {
        let judged = reference::run_entry(image, list, work);
        self.run_in(image, list, &judged, room, work);
        reference::delivered(&judged, room).number
    }

    fn run_in(&mut self, image: &[u8], list: &[u8], judged: &Judged, room: usize, work: usize) {
        self.out.lay(&self.patterned);
        self.work.lay(&self.patterned);
        let answer = katsunebyo::run_answer(image, list, self.out.room(room), self.work.room(work));
        let what = || {
            format!(
                "run {} list {}, work room {work}",
                hex::encode(image),
                hex::encode(list)
            )
        };
        self.compare(answer, judged, room, &what);
        self.look_at_work(answer, work, &what);
    }

    /// Number, length, place, the answer's bytes and every other byte of the output.
    fn compare(&mut self, answer: Answer, judged: &Judged, room: usize, what: &dyn Fn() -> String) {
        self.cases.answered(answer.number);
        let expected = reference::delivered(judged, room);
        assert_eq!(
            (answer.number, answer.length, answer.place),
            (expected.number, expected.length, expected.place),
            "number, length, place in a room of {room}: {}",
            what()
        );
        let written = &self.out.bytes[MARGIN..MARGIN + expected.length];
        assert!(
            written == expected.bytes,
            "bytes {} for {}: {}",
            hex::encode(written),
            hex::encode(expected.bytes),
            what()
        );
        assert!(
            self.out.kept(&self.patterned, expected.length),
            "an output byte beyond the answer changed in a room of {room}: {}",
            what()
        );
    }

    /// Zero to 65,536 after every answer but 14, as it was beyond.
    fn look_at_work(&self, answer: Answer, work: usize, what: &dyn Fn() -> String) {
        let cleared = if answer.number == 14 { 0 } else { WORK };
        assert!(cleared <= work, "{} did not see its work room", what());
        let zeros = &self.work.bytes[MARGIN..MARGIN + cleared];
        assert!(
            zeros.iter().all(|byte| *byte == 0),
            "work room not cleared: {}",
            what()
        );
        assert!(
            self.work.kept(&self.patterned, cleared),
            "work room changed beyond: {}",
            what()
        );
    }
}

/// For an answer: exactly its length, one short, one more, the most; for a refusal: none and the most.
fn rooms(judged: &Judged, most: usize) -> Vec<usize> {
    match judged {
        Err(_) => vec![0, most],
        Ok(bytes) if bytes.is_empty() => vec![0, 1],
        Ok(bytes) => vec![bytes.len(), bytes.len() - 1, bytes.len() + 1, most],
    }
}
