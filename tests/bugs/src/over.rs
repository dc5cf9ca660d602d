//! Makes the fourteen calls on the reference with a bug planted in it, in the words of tests/driver/driver.c:
//! `over NUMBER`, where 0 plants none.
#![forbid(unsafe_code)]

include!(concat!(env!("OUT_DIR"), "/root.rs"));

use roll::{Line, Totals};
use sheet::Declaration;
use std::io::{Read, Write};
use std::sync::OnceLock;

static PLANTED: OnceLock<usize> = OnceLock::new();

/// Whether this bug is planted.
fn planted(number: usize) -> bool {
    PLANTED.get() == Some(&number)
}

/// The call, six numbers, a declaration, and two lengths.
const HEAD: usize = 1 + 4 * 6 + 20 + 4 + 4;

fn main() {
    let number = std::env::args().nth(1).expect("the number of a bug");
    PLANTED
        .set(number.parse().expect("a number"))
        .expect("set once");
    let (mut input, mut output) = (std::io::stdin().lock(), std::io::stdout().lock());
    let mut head = [0; HEAD];
    for calls in 0u32.. {
        if input.read_exact(&mut head).is_err() {
            return;
        }
        let number = |place: usize| {
            let four = head[place..place + 4].try_into().expect("four bytes");
            u32::from_be_bytes(four)
        };
        let numbers = [0, 1, 2, 3, 4, 5].map(|place| number(1 + 4 * place));
        let declaration: Declaration = head[25..45].try_into().expect("twenty bytes");
        let mut book = vec![0; number(45) as usize];
        let mut bytes = vec![0; number(49) as usize];
        input.read_exact(&mut book).expect("the book");
        input.read_exact(&mut bytes).expect("the bytes");
        let mut reply = vec![head[0]];
        reply.extend(calls.to_be_bytes());
        if head[0] == ROLL {
            reply.push(0);
            reply.extend(sequence(&book, &bytes));
        } else {
            let answer = make(head[0], numbers, &declaration, &mut book, &bytes);
            reply.push(answer.len() as u8);
            for part in [&answer, &book, &bytes, &declaration[..]] {
                reply.extend(part);
            }
        }
        output.write_all(&reply).expect("the reply is taken");
        output.flush().expect("the reply is taken");
    }
}

/// What is there, behind a byte that says whether it is.
fn held<const N: usize>(held: Option<[u8; N]>) -> Vec<u8> {
    let mut bytes = vec![u8::from(held.is_some())];
    bytes.extend(held.unwrap_or([0; N]));
    bytes
}

fn outcome(outcome: steps::Outcome) -> Vec<u8> {
    let (message, delivery) = (held(outcome.message), held(outcome.delivery));
    let ends = [u8::from(outcome.helps)];
    [&[outcome.answer][..], &message, &delivery, &ends].concat()
}

/// Makes one call and gives its answer.
fn make(call: u8, x: [u32; 6], v: &Declaration, book: &mut [u8], bytes: &[u8]) -> Vec<u8> {
    match call {
        0 => {
            let (answer, length) = book::length(x[0], x[1]);
            [&[answer][..], &(length as u64).to_be_bytes()].concat()
        }
        1 => vec![book::open(book, x[0], x[1], x[2], x[3], x[4], x[5], bytes)],
        2 => outcome(steps::publish(book, x[0], v)),
        3 => outcome(steps::receive(book, x[0], bytes)),
        4 => outcome(steps::receive_entry(book, x[0], bytes)),
        5 => {
            let returned = steps::come_back(book);
            let request = returned.request.unwrap_or_default();
            [&[returned.answer][..], &request].concat()
        }
        6 => {
            let sent = steps::sent(book, x[0] as u8, x[1], x[2]);
            [&[sent.answer][..], &held(sent.message)].concat()
        }
        7 => {
            let waiting = steps::waiting(book);
            let entry = waiting.entry.map(|entry| [entry.number, entry.sender]);
            [&[waiting.answer][..], &held(entry)].concat()
        }
        8 => vec![sheet::judge(bytes, v)],
        9 => {
            let written = message::write(x[0] as u8, x[1], x[2] as u8, x[3] as u8, v);
            let message = written.message.unwrap_or([0; 36]);
            [&[written.answer][..], &message].concat()
        }
        10 => read(message::read(bytes)),
        11 => words(&roll::line_of(v)).map(u32::to_be_bytes).concat(),
        _ => panic!("no call {call}"),
    }
}

fn read(read: message::ReadAnswer) -> Vec<u8> {
    let mut five = [0; 27];
    match read.form {
        Some(message::Form::Message(message)) => {
            five[0] = message.kind as u8;
            five[1..5].copy_from_slice(&message.season.to_be_bytes());
            (five[5], five[6]) = (message.sender, message.number);
            five[7..].copy_from_slice(&message.declaration);
        }
        Some(message::Form::Request(season)) => {
            five[0] = 9;
            five[1..5].copy_from_slice(&season.to_be_bytes());
        }
        None => (),
    }
    [&[read.answer][..], &five].concat()
}

/// A sequence on a roll, and its steps.
const ROLL: u8 = 14;
const ROLL_INSERT: u32 = 12;
const ROLL_STRIKE: u32 = 13;
const WRITE_LINE: u32 = 15;

fn words(line: &Line) -> [u32; 5] {
    [
        line.lot,
        line.colonies,
        line.kilograms,
        line.moisture,
        line.conductivity,
    ]
}

fn line(bytes: &[u8]) -> Line {
    Line {
        lot: word(bytes, 0),
        colonies: word(bytes, 4),
        kilograms: word(bytes, 8),
        moisture: word(bytes, 12),
        conductivity: word(bytes, 16),
    }
}

fn word(bytes: &[u8], at: usize) -> u32 {
    u32::from_le_bytes(bytes[at..at + 4].try_into().expect("four bytes"))
}

fn totals(bytes: &[u8]) -> Totals {
    let wide = |at| u64::from(word(bytes, at)) | u64::from(word(bytes, at + 4)) << 32;
    Totals {
        kilograms: wide(0),
        lines: wide(8) as usize,
        moisture: word(bytes, 16),
        measured: word(bytes, 20),
    }
}

/// Takes the steps on a roll and gives what each call answered, with all lines and the totals as they are then.
fn sequence(lines: &[u8], steps: &[u8]) -> Vec<u8> {
    let mut lines: Vec<Line> = lines.chunks_exact(20).map(line).collect();
    let mut of = Totals::default();
    let mut reply = vec![];
    for step in steps.chunks_exact(32) {
        let [what, number] = [word(step, 0), word(step, 4)].map(u32::swap_bytes);
        let (number, step) = (number as usize, &step[8..]);
        let answer = match what {
            ROLL_INSERT => roll::insert(&mut lines[..number], &mut of, line(step)),
            ROLL_STRIKE => roll::strike(&mut lines[..number], &mut of, word(step, 0)),
            WRITE_LINE => {
                lines[number] = line(step);
                continue;
            }
            _ => {
                of = totals(step);
                continue;
            }
        };
        reply.push(answer);
        let all = lines.iter().flat_map(words);
        reply.extend(all.flat_map(u32::to_le_bytes));
        reply.extend(of.kilograms.to_le_bytes());
        reply.extend((of.lines as u64).to_le_bytes());
        reply.extend([of.moisture, of.measured].map(u32::to_le_bytes).concat());
    }
    reply
}
