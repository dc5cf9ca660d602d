//! The driver as a process at the other end of two pipes: one question, one reply, nothing between. On a roll one
//! question has many calls.

use reference::testing::forms::{slots_from, LONGEST_BOOK};
use reference::{Declaration, Line, Roll, RollAnswer, RollStep, Totals, DECLARATION, MOST_HOUSES};
use std::io::{BufReader, Read, Write};
use std::process::{Child, ChildStdin, ChildStdout, Command, ExitStatus, Stdio};
use std::sync::atomic::{AtomicU64, Ordering};
use std::sync::{Arc, Mutex};
use std::time::Duration;

/// The fourteen calls, under the driver's numbers.
#[derive(Clone, Copy, Debug, PartialEq, Eq)]
pub enum Call {
    Length,
    Open,
    Publish,
    Receive,
    ReceiveEntry,
    ComeBack,
    Sent,
    Waiting,
    Judge,
    Write,
    Read,
    RollLine,
    RollInsert,
    RollStrike,
}

/// The driver's numbers of a sequence on a roll, and of what is written in it with no call.
const ROLL: u8 = 14;
const WRITE_LINE: u32 = 15;
const WRITE_TOTALS: u32 = 16;

/// All that any call takes. What a call does not take is empty or zeros.
pub struct Question<'a> {
    pub call: Call,
    pub numbers: [u32; NUMBERS],
    pub declaration: Declaration,
    pub book: &'a [u8],
    /// A sheet or a message.
    pub bytes: &'a [u8],
}

/// How many numbers a question has.
pub const NUMBERS: usize = 6;

/// What comes before the lengths of the book and of the bytes in a question, and before the answer in a
/// reply.
const LENGTHS: usize = 1 + 4 * NUMBERS + DECLARATION;
const HEAD: usize = 6;

/// So much is read ahead: a reply with the longest book and more than any answer, or most of one that is longer.
const WHOLE_REPLY: usize = LONGEST_BOOK + 1024;

/// Bytes of a line and of totals, as they lie in memory.
const LINE: usize = 20;
const TOTALS: usize = 24;

fn line_bytes(lines: &[Line]) -> Vec<u8> {
    let mut bytes = Vec::with_capacity(LINE * lines.len());
    for line in lines {
        for number in [
            line.lot,
            line.colonies,
            line.kilograms,
            line.moisture,
            line.conductivity,
        ] {
            bytes.extend(number.to_le_bytes());
        }
    }
    bytes
}

fn line_of(bytes: &[u8]) -> Line {
    let word = |at: usize| u32::from_le_bytes(bytes[at..at + 4].try_into().expect("four bytes"));
    Line {
        lot: word(0),
        colonies: word(4),
        kilograms: word(8),
        moisture: word(12),
        conductivity: word(16),
    }
}

fn totals_of(bytes: &[u8]) -> Totals {
    let word = |at: usize| u32::from_le_bytes(bytes[at..at + 4].try_into().expect("four bytes"));
    let wide = |at: usize| u64::from_le_bytes(bytes[at..at + 8].try_into().expect("eight bytes"));
    Totals {
        kilograms: wide(0),
        lines: wide(8) as usize,
        moisture: word(16),
        measured: word(20),
    }
}

/// A step in the driver's words.
fn step_bytes(step: &RollStep) -> Vec<u8> {
    let (what, number, mut rest) = match step {
        RollStep::Insert(lent, line) => (Call::RollInsert as u32, *lent, line_bytes(&[*line])),
        RollStep::Strike(lent, lot) => (Call::RollStrike as u32, *lent, lot.to_le_bytes().to_vec()),
        RollStep::Line(place, line) => (WRITE_LINE, *place, line_bytes(&[*line])),
        RollStep::Totals(totals) => {
            let mut bytes = totals.kilograms.to_le_bytes().to_vec();
            bytes.extend((totals.lines as u64).to_le_bytes());
            bytes.extend(totals.moisture.to_le_bytes());
            bytes.extend(totals.measured.to_le_bytes());
            (WRITE_TOTALS, 0, bytes)
        }
    };
    rest.resize(TOTALS, 0);
    let number = u32::try_from(number).expect("a place on a roll");
    [&what.to_be_bytes()[..], &number.to_be_bytes(), &rest].concat()
}

/// Longer than any call takes, on a busy machine and under the emulator; or COMPARE_PATIENCE, in seconds.
fn patience() -> Duration {
    let seconds = std::env::var("COMPARE_PATIENCE").ok();
    let seconds = seconds.map(|seconds| seconds.parse().expect("a patience in seconds"));
    Duration::from_secs(seconds.unwrap_or(30))
}

/// The driver, kept open.
pub struct Pipe {
    child: Arc<Mutex<Child>>,
    to: Option<ChildStdin>,
    from: BufReader<ChildStdout>,
    calls: u32,
    question: Vec<u8>,
    /// Counts questions and whole replies, so it is odd while a reply is waited for.
    turns: Arc<AtomicU64>,
}

/// Ends the driver where a reply is not whole for so long: a short one would be waited for without end, and
/// a call that hangs too.
fn watch(turns: &AtomicU64, child: &Mutex<Child>) {
    let mut before = 0;
    let patience = patience();
    loop {
        std::thread::sleep(patience);
        let now = turns.load(Ordering::Relaxed);
        if now == before && now % 2 == 1 {
            eprintln!("the driver: no whole reply to question {}", now / 2);
            if let Ok(mut child) = child.lock() {
                child.kill().expect("the driver can be ended");
            }
            return;
        }
        before = now;
    }
}

impl Pipe {
    /// Starts the driver by these words. The emulator's own settings are left out.
    pub fn start(words: &[String]) -> Self {
        let (program, arguments) = words.split_first().expect("the words that run the driver");
        let mut command = Command::new(program);
        command.args(arguments);
        command.stdin(Stdio::piped()).stdout(Stdio::piped());
        for (name, _) in std::env::vars_os() {
            if name.to_string_lossy().starts_with("QEMU_") {
                command.env_remove(name);
            }
        }
        let mut child = command.spawn().expect("the driver starts");
        let from = child.stdout.take().expect("a pipe from the driver");
        let to = child.stdin.take();
        let turns = Arc::new(AtomicU64::new(0));
        let child = Arc::new(Mutex::new(child));
        let watched = (turns.clone(), child.clone());
        std::thread::spawn(move || watch(&watched.0, &watched.1));
        Pipe {
            to,
            from: BufReader::with_capacity(WHOLE_REPLY, from),
            child,
            calls: 0,
            question: vec![],
            turns,
        }
    }

    /// Makes a call: gives the answer, which has this length, and the book's bytes afterwards.
    pub fn call(&mut self, question: &Question, length: usize) -> (Vec<u8>, Vec<u8>) {
        self.ask(
            question.call as u8,
            question.numbers,
            &question.declaration,
            [question.book, question.bytes],
            length,
        );
        let answer = self.take(length);
        let book = self.take(question.book.len());
        let others = self.take(question.bytes.len() + DECLARATION);
        self.had();
        let same = [question.bytes, &question.declaration].concat() == others;
        assert!(same, "a sheet, message or declaration is written to");
        (answer, book)
    }

    /// Takes these steps on a roll: gives for each call its answer, and all lines and the totals as they are then.
    pub fn roll(&mut self, roll: &Roll, steps: &[RollStep]) -> Vec<RollAnswer> {
        let lines = line_bytes(&roll.lines);
        let first = RollStep::Totals(roll.totals);
        let bytes: Vec<u8> = [&first]
            .into_iter()
            .chain(steps)
            .flat_map(step_bytes)
            .collect();
        self.ask(ROLL, [0; NUMBERS], &[0; DECLARATION], [&lines, &bytes], 0);
        let mut answers = vec![];
        for _ in steps.iter().filter(|step| step.is_call()) {
            let bytes = self.take(1 + lines.len() + TOTALS);
            let (answer, rest) = bytes.split_first().expect("an answer");
            let (lines, totals) = rest.split_at(lines.len());
            let lines = lines.chunks_exact(LINE).map(line_of).collect();
            let totals = totals_of(totals);
            answers.push((*answer, Roll { lines, totals }));
        }
        self.had();
        answers
    }

    /// Sends a question, and takes the head of the reply to it.
    fn ask(
        &mut self,
        call: u8,
        numbers: [u32; NUMBERS],
        declaration: &Declaration,
        arguments: [&[u8]; 2],
        length: usize,
    ) {
        self.turns.fetch_add(1, Ordering::Relaxed);
        self.send(call, numbers, declaration, arguments);
        let mut head = vec![call];
        head.extend(self.calls.to_be_bytes());
        head.push(length as u8);
        assert_eq!(self.take(HEAD), head, "the head of the driver's reply");
    }

    /// The reply was taken.
    fn had(&mut self) {
        self.turns.fetch_add(1, Ordering::Relaxed);
        self.calls = self.calls.wrapping_add(1);
    }

    /// The next bytes of a reply.
    fn take(&mut self, length: usize) -> Vec<u8> {
        let mut bytes = vec![0; length];
        if let Err(error) = self.from.read_exact(&mut bytes) {
            self.gone(&format!("a short reply ({error})"));
        }
        bytes
    }

    fn send(
        &mut self,
        call: u8,
        numbers: [u32; NUMBERS],
        declaration: &Declaration,
        arguments: [&[u8]; 2],
    ) {
        self.question.clear();
        self.question.push(call);
        for number in numbers {
            self.question.extend(number.to_be_bytes());
        }
        self.question.extend(declaration);
        for bytes in arguments {
            self.question.extend((bytes.len() as u32).to_be_bytes());
        }
        for bytes in arguments {
            self.question.extend(bytes);
        }
        let to = self.to.as_mut().expect("a pipe to the driver");
        if let Err(error) = to.write_all(&self.question) {
            self.gone(&format!("a question was not taken ({error})"));
        }
    }

    /// The driver is no longer there, or about to go.
    fn gone(&mut self, how: &str) -> ! {
        panic!("the driver: {how}; {}", self.wait());
    }

    /// How the driver ends, with nothing more to take.
    fn wait(&mut self) -> ExitStatus {
        self.to = None;
        let mut child = self.child.lock().expect("the driver");
        child.wait().expect("the driver's end")
    }

    /// Ends the driver: it has nothing more to say, and ends well.
    pub fn end(&mut self) {
        self.turns.fetch_add(1, Ordering::Relaxed);
        self.to = None;
        let mut rest = vec![];
        self.from
            .read_to_end(&mut rest)
            .expect("the end of the pipe");
        assert!(rest.is_empty(), "the driver said more than it was asked");
        let end = self.wait();
        assert!(end.success(), "the driver: {end}");
    }
}

impl Drop for Pipe {
    /// Where a check panics, the last question is shown whole but for its book, of which the head is shown.
    fn drop(&mut self) {
        if !std::thread::panicking() || self.question.len() < LENGTHS + 8 {
            return;
        }
        let (head, rest) = self.question.split_at(LENGTHS + 8);
        let length = &head[LENGTHS..LENGTHS + 4];
        let length = u32::from_be_bytes(length.try_into().expect("four bytes")) as usize;
        let (book, bytes) = rest.split_at(length);
        eprintln!(
            "the last question, after {} replies: {head:02X?}",
            self.calls
        );
        eprintln!(
            "  a book of {length} bytes: {:02X?} ..",
            &book[..length.min(slots_from(MOST_HOUSES))]
        );
        eprintln!(
            "  a sheet or message of {} bytes: {bytes:02X?}",
            bytes.len()
        );
    }
}
