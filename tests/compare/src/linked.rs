//! The library that a house links, as the fourteen calls over the driver. Whatever the structs may not hold
//! makes a panic here, before anything is compared.

use crate::pipe::{Call, Pipe, Question, NUMBERS};
use reference::{
    Declaration, Form, Kind, Library, Line, Message, Outcome, ReadAnswer, Returned, Roll,
    RollAnswer, RollStep, SentAnswer, Totals, Waiting, WaitingEntry, Written,
};

/// Every call with the answers that it can give; 0 is counted where there is none.
pub const ANSWERS: [(Call, &[u8]); 14] = [
    (Call::Length, &[0, 9]),
    (Call::Open, &[0, 9, 10, 11]),
    (Call::Publish, &[0, 1, 4, 5, 8]),
    (Call::Receive, &[0, 1, 2, 3, 4, 5, 6, 7, 13, 14]),
    (Call::ReceiveEntry, &[0, 1, 2, 3, 4, 5, 6, 7, 13, 14]),
    (Call::ComeBack, &[0, 1]),
    (Call::Sent, &[0, 1, 2, 4]),
    (Call::Waiting, &[0, 1]),
    (Call::Judge, &[0, 5, 10]),
    (Call::Write, &[0, 2]),
    (Call::Read, &[0, 2]),
    (Call::RollLine, &[0]),
    (Call::RollInsert, &[0, 20, 21, 22, 23]),
    (Call::RollStrike, &[0, 20, 24]),
];

/// What answers carry.
pub const CARRIED: [&str; 4] = [
    "messages given",
    "declarations delivered",
    "requests helped",
    "messages to send again",
];

const NO_DECLARATION: Declaration = [0; 20];
const NO_NUMBERS: [u32; NUMBERS] = [0; NUMBERS];

/// How often a call gave each answer.
pub type Given = [u64; 25];

/// The library at the other end of the pipes, and how often each call gave each answer.
pub struct Linked {
    pipe: Pipe,
    /// By call and answer.
    pub counts: [Given; ANSWERS.len()],
    /// How often an answer carried each of them.
    pub carried: [u64; CARRIED.len()],
}

impl Linked {
    /// Starts the driver by these words.
    pub fn start(words: &[String]) -> Self {
        Linked {
            pipe: Pipe::start(words),
            counts: [[0; 25]; ANSWERS.len()],
            carried: [0; CARRIED.len()],
        }
    }

    /// How many calls were made.
    pub fn calls(&self) -> u64 {
        self.counts.iter().flatten().sum()
    }

    /// Ends the driver.
    pub fn end(&mut self) {
        self.pipe.end();
    }

    /// Makes a call on a book, which a refusal leaves byte for byte.
    fn on_book<const N: usize>(&mut self, question: Question) -> ([u8; N], Vec<u8>) {
        let (fields, book) = self.pipe.call(&question, N);
        let left = book == question.book;
        self.count(question.call, fields[0], left);
        (fields.try_into().expect("the answer's length"), book)
    }

    /// Counts an answer, which is one of the call's own, and a refusal leaves all as it was.
    fn count(&mut self, call: Call, answer: u8, left: bool) {
        let (of, answers) = ANSWERS[call as usize];
        assert_eq!(of, call, "the table of answers");
        assert!(
            answers.contains(&answer),
            "{call:?} gives {answer}, no answer of its own"
        );
        assert!(
            answer == 0 || left,
            "{call:?} is refused by {answer} and writes"
        );
        self.counts[call as usize][usize::from(answer)] += 1;
    }

    /// Makes a call with no book.
    fn plain<const N: usize>(
        &mut self,
        call: Call,
        numbers: [u32; NUMBERS],
        declaration: &Declaration,
        bytes: &[u8],
    ) -> [u8; N] {
        let (fields, _) = self.on_book(Question {
            call,
            numbers,
            declaration: *declaration,
            book: &[],
            bytes,
        });
        fields
    }

    /// Makes a call that reads a book, and does not write to it.
    fn reading<const N: usize>(
        &mut self,
        call: Call,
        numbers: [u32; NUMBERS],
        book: &[u8],
    ) -> [u8; N] {
        let (fields, after) = self.on_book(Question {
            call,
            numbers,
            declaration: NO_DECLARATION,
            book,
            bytes: &[],
        });
        assert!(after == book, "{call:?} writes to the book");
        fields
    }

    /// Makes a publishing or a receiving, and takes its outcome apart.
    fn step(&mut self, question: Question) -> (Outcome, Vec<u8>) {
        let (fields, after) = self.on_book::<60>(question);
        let answer = fields[0];
        let outcome = Outcome {
            answer,
            message: held("gives", fields[1], fields[2..38].try_into().expect("36")),
            delivery: held(
                "delivers",
                fields[38],
                fields[39..59].try_into().expect("20"),
            ),
            helps: flag("helps", fields[59]),
        };
        let carries = [
            outcome.message.is_some(),
            outcome.delivery.is_some(),
            outcome.helps,
        ];
        assert!(
            answer == 0 || carries == [false; 3],
            "a refusal by {answer} carries something"
        );
        for (count, carries) in self.carried.iter_mut().zip(carries) {
            *count += u64::from(carries);
        }
        (outcome, after)
    }

    /// Makes a receiving, by entry or not.
    fn received(&mut self, call: Call, book: &mut [u8], house: u32, message: &[u8]) -> Outcome {
        let (outcome, after) = self.step(Question {
            call,
            numbers: [house, 0, 0, 0, 0, 0],
            declaration: NO_DECLARATION,
            book,
            bytes: message,
        });
        book.copy_from_slice(&after);
        outcome
    }
}

/// A bool is 0 or 1, and nothing else.
fn flag(name: &str, byte: u8) -> bool {
    assert!(byte <= 1, "the bool `{name}` is the byte {byte}");
    byte == 1
}

/// What stands behind a flag: where it is absent, zeros.
fn held<const N: usize>(name: &str, byte: u8, bytes: [u8; N]) -> Option<[u8; N]> {
    if flag(name, byte) {
        return Some(bytes);
    }
    assert_eq!(bytes, [0; N], "`{name}` is false, and there are no zeros");
    None
}

/// What the fields of a reading say. Of a request they are kind 9, the season, and zeros.
fn form(fields: [u8; 27]) -> Form {
    let [kind, y0, y1, y2, y3, rest @ ..] = fields;
    let season = u32::from_be_bytes([y0, y1, y2, y3]);
    if kind == 9 {
        assert_eq!(rest, [0; 22], "a request with an entry or a declaration");
        return Form::Request(season);
    }
    let [sender, number, declaration @ ..] = rest;
    Form::Message(Message {
        kind: Kind::of(kind).unwrap_or_else(|| panic!("reading gives the kind {kind}")),
        season,
        sender,
        number,
        declaration,
    })
}

impl Library for Linked {
    fn length(&mut self, n: u32, s: u32) -> (u8, usize) {
        let [answer, length @ ..] =
            self.plain::<9>(Call::Length, [n, s, 0, 0, 0, 0], &NO_DECLARATION, &[]);
        let length = u64::from_be_bytes(length);
        (answer, usize::try_from(length).expect("a book's length"))
    }

    fn open(
        &mut self,
        book: &mut [u8],
        n: u32,
        s: u32,
        own: u32,
        f: u32,
        d: u32,
        season: u32,
        sheet: &[u8],
    ) -> u8 {
        let ([answer], after) = self.on_book(Question {
            call: Call::Open,
            numbers: [n, s, own, f, d, season],
            declaration: NO_DECLARATION,
            book,
            bytes: sheet,
        });
        book.copy_from_slice(&after);
        answer
    }

    fn publish(&mut self, book: &mut [u8], number: u32, declaration: &Declaration) -> Outcome {
        let (outcome, after) = self.step(Question {
            call: Call::Publish,
            numbers: [number, 0, 0, 0, 0, 0],
            declaration: *declaration,
            book,
            bytes: &[],
        });
        book.copy_from_slice(&after);
        outcome
    }

    fn receive(&mut self, book: &mut [u8], house: u32, message: &[u8]) -> Outcome {
        self.received(Call::Receive, book, house, message)
    }

    fn receive_entry(&mut self, book: &mut [u8], house: u32, message: &[u8]) -> Outcome {
        self.received(Call::ReceiveEntry, book, house, message)
    }

    fn come_back(&mut self, book: &[u8]) -> Returned {
        let [answer, request @ ..] = self.reading::<12>(Call::ComeBack, NO_NUMBERS, book);
        Returned {
            answer,
            request: held("returned", u8::from(answer == 0), request),
        }
    }

    fn sent(&mut self, book: &[u8], kind: u8, sender: u32, number: u32) -> SentAnswer {
        let numbers = [u32::from(kind), sender, number, 0, 0, 0];
        let [answer, gives, message @ ..] = self.reading::<38>(Call::Sent, numbers, book);
        let message = held("gives", gives, message);
        assert!(
            answer == 0 || message.is_none(),
            "a refusal by {answer} carries a message"
        );
        self.carried[3] += u64::from(message.is_some());
        SentAnswer { answer, message }
    }

    fn waiting(&mut self, book: &[u8]) -> Waiting {
        let [answer, waits, number, sender] = self.reading(Call::Waiting, NO_NUMBERS, book);
        let entry = held("waits", waits, [number, sender]);
        assert!(
            answer == 0 || entry.is_none(),
            "a refusal names a waiting entry"
        );
        Waiting {
            answer,
            entry: entry.map(|[number, sender]| WaitingEntry { number, sender }),
        }
    }

    fn judge(&mut self, sheet: &[u8], declaration: &Declaration) -> u8 {
        let [answer] = self.plain(Call::Judge, NO_NUMBERS, declaration, sheet);
        answer
    }

    fn write(&mut self, kind: u8, season: u32, sender: u8, number: u8, v: &Declaration) -> Written {
        let numbers = [
            u32::from(kind),
            season,
            u32::from(sender),
            u32::from(number),
            0,
            0,
        ];
        let [answer, message @ ..] = self.plain::<37>(Call::Write, numbers, v, &[]);
        Written {
            answer,
            message: held("written", u8::from(answer == 0), message),
        }
    }

    fn read(&mut self, message: &[u8]) -> ReadAnswer {
        let fields = self.plain::<28>(Call::Read, NO_NUMBERS, &NO_DECLARATION, message);
        let [answer, five @ ..] = fields;
        let five = held("read", u8::from(answer == 0), five);
        ReadAnswer {
            answer,
            form: five.map(form),
        }
    }

    fn roll_line(&mut self, v: &Declaration) -> Line {
        let question = Question {
            call: Call::RollLine,
            numbers: NO_NUMBERS,
            declaration: *v,
            book: &[],
            bytes: &[],
        };
        let (fields, _) = self.pipe.call(&question, 20);
        self.count(question.call, 0, true);
        let word = |at: usize| u32::from_be_bytes(fields[at..at + 4].try_into().expect("four"));
        Line {
            lot: word(0),
            colonies: word(4),
            kilograms: word(8),
            moisture: word(12),
            conductivity: word(16),
        }
    }

    fn roll_insert(&mut self, roll: &mut [Line], totals: &mut Totals, line: Line) -> u8 {
        let call = RollStep::Insert(roll.len(), line);
        Roll::take_one(self, roll, totals, call)
    }

    fn roll_strike(&mut self, roll: &mut [Line], totals: &mut Totals, lot: u32) -> u8 {
        let call = RollStep::Strike(roll.len(), lot);
        Roll::take_one(self, roll, totals, call)
    }

    fn on_roll(&mut self, roll: &mut Roll, steps: &[RollStep]) -> Vec<RollAnswer> {
        let answers = self.pipe.roll(roll, steps);
        let mut given = answers.iter();
        for step in steps {
            let call = match *step {
                RollStep::Line(place, line) => {
                    roll.lines[place] = line;
                    continue;
                }
                RollStep::Totals(totals) => {
                    roll.totals = totals;
                    continue;
                }
                RollStep::Insert(..) => Call::RollInsert,
                RollStep::Strike(..) => Call::RollStrike,
            };
            let (answer, after) = given.next().expect("an answer to each call");
            self.count(call, *answer, roll == after);
            roll.clone_from(after);
        }
        answers
    }
}
