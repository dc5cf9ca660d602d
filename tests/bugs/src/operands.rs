//! Copies of a program with one operand changed: a number one more or one less, or another condition. What is
//! such a change is left to the disassembler: each byte of an instruction is changed, and what then reads as
//! the same instruction but for one number, or one condition, is taken. Left out is where the compiler keeps
//! things that are its own: places on the stack and of constants, and where a jump goes.

use crate::listing::{listing, Instruction};
use std::collections::HashMap;
use std::fmt::Write;
use std::path::Path;
use std::process::Command;

/// An instruction with one operand changed.
#[derive(Clone, Debug)]
pub struct Change {
    /// Where the bytes stand when the program runs, and what they are changed to.
    pub at: u64,
    pub bytes: Vec<u8>,
    /// Which instruction, and how changed.
    pub name: String,
}

/// Each candidate has so much room, and what it leaves is filled with instructions of one byte.
const ROOM: usize = 32;
const FILL: u8 = 0x90;

/// All changes of these instructions. `clang` and `objdump` make and read an object below `kept`.
pub fn changes(all: &[Instruction], clang: &str, objdump: &str, kept: &Path) -> Vec<Change> {
    let mut candidates = vec![];
    for instruction in all {
        for bytes in others(&instruction.bytes) {
            candidates.push((instruction, bytes));
        }
    }
    let texts = texts(&candidates, clang, objdump, kept);
    let names = names(all);
    let mut changes = vec![];
    for (place, (old, bytes)) in candidates.into_iter().enumerate() {
        let new = texts.get(&place).and_then(|new| change(&old.text, new));
        let name = &names[&old.at];
        let Some(how) = new.filter(|how| !is_no_change(name, how)) else {
            continue;
        };
        changes.push(Change {
            at: old.at,
            bytes,
            name: format!("{name}, {how}"),
        });
    }
    changes
}

/// A name for each instruction by its address: its function, its text, behind which instruction where it has a
/// condition, and the how many-th of these it is, from 1.
fn names(all: &[Instruction]) -> HashMap<u64, String> {
    let mut counts: HashMap<String, usize> = HashMap::new();
    let mut last = "";
    let mut names = HashMap::new();
    for instruction in all {
        let (function, text) = (&instruction.function, &instruction.text);
        let has_condition = is_conditional(text);
        let name = match has_condition {
            true => format!("{function}: {text} after {last}"),
            false => format!("{function}: {text}"),
        };
        let count = counts.entry(name.clone()).or_default();
        *count += 1;
        names.insert(instruction.at, format!("{name} ({count})"));
        if !keeps_flags(text) {
            last = text;
        }
    }
    names
}

/// The instruction's bytes with one byte changed: by one, or in its last four bits to a near condition.
fn others(bytes: &[u8]) -> Vec<Vec<u8>> {
    let mut all = vec![];
    for (place, byte) in bytes.iter().enumerate() {
        let mut news = vec![byte.wrapping_add(1), byte.wrapping_sub(1)];
        news.extend(
            near_conditions(byte & 15)
                .iter()
                .map(|near| byte & 0xF0 | near),
        );
        news.sort_unstable();
        news.dedup();
        for new in news {
            let mut other = bytes.to_vec();
            other[place] = new;
            all.push(other);
        }
    }
    all
}

/// The conditions as the processor numbers them: overflow, below, equal, not above; sign, parity, less, not
/// greater; each followed by its opposite.
const CONDITIONS: [&str; 16] = [
    "o", "no", "b", "ae", "e", "ne", "be", "a", "s", "ns", "p", "np", "l", "ge", "le", "g",
];

/// The opposite condition, and those that differ from it where both sides are equal, or on one side alone.
fn near_conditions(condition: u8) -> &'static [u8] {
    match condition {
        2 => &[3, 6],
        3 => &[2, 7],
        4 => &[5, 3, 6],
        5 => &[4, 2, 7],
        6 => &[7, 2],
        7 => &[6, 3],
        10 => &[11],
        11 => &[10],
        12 => &[13, 14],
        13 => &[12, 15],
        14 => &[15, 12],
        15 => &[14, 13],
        _ => &[],
    }
}

/// Whether the second of two instructions has a condition near to the first's.
fn is_near(old: &str, new: &str) -> bool {
    let condition = |text: &str| {
        let kind = ["j", "set", "cmov"]
            .iter()
            .find_map(|k| text.strip_prefix(k));
        let place = CONDITIONS.iter().position(|name| Some(*name) == kind);
        place.map(|place| place as u8)
    };
    match (condition(old), condition(new)) {
        (Some(old), Some(new)) => near_conditions(old).contains(&new),
        _ => false,
    }
}

/// Whether an instruction looks at a condition.
fn is_conditional(text: &str) -> bool {
    let kinds = ["j", "set", "cmov"];
    kinds.iter().any(|kind| text.starts_with(kind)) && text != "jmp"
}

/// Whether conditions stand after this instruction as before it.
fn keeps_flags(text: &str) -> bool {
    let kinds = ["mov", "xorps ", "lea ", "bswap ", "push ", "pop ", "jmp"];
    kinds.iter().any(|kind| text.starts_with(kind)) || is_conditional(text)
}

/// Whether a change of a condition is none: behind an instruction by which nothing is below, equal is not above,
/// and not equal is above.
fn is_no_change(name: &str, how: &str) -> bool {
    let Some((_, before)) = name.split_once(" after ") else {
        return false;
    };
    let clears = ["test ", "and ", "or ", "xor "];
    let clears = clears.iter().any(|kind| before.starts_with(kind));
    let with_zero = before.starts_with("cmp ") && before.contains(",0x0 (");
    let how = how.strip_prefix("made ").unwrap_or_default();
    let unsigned = ["jbe", "ja", "setbe", "seta", "cmovbe", "cmova"].contains(&how);
    (clears || with_zero) && unsigned
}

/// What each candidate reads as, where it is one instruction of the old one's length.
fn texts(
    candidates: &[(&Instruction, Vec<u8>)],
    clang: &str,
    objdump: &str,
    kept: &Path,
) -> HashMap<usize, String> {
    let mut source = String::from(".text\n");
    for (_, bytes) in candidates {
        let mut room = bytes.clone();
        room.resize(ROOM, FILL);
        let room: Vec<String> = room.iter().map(u8::to_string).collect();
        writeln!(source, ".byte {}", room.join(",")).expect("a line");
    }
    let [from, to] = ["candidates.s", "candidates.o"].map(|name| kept.join(name));
    std::fs::write(&from, source).expect("the candidates");
    let status = Command::new(clang)
        .args(["--target=x86_64-unknown-linux-gnu", "-c", "-o"])
        .args([&to, &from])
        .status()
        .expect("clang runs");
    assert!(status.success(), "the candidates make an object");
    let mut texts = HashMap::new();
    for read in listing(objdump, &to) {
        let (place, within) = (read.at as usize / ROOM, read.at as usize % ROOM);
        if within == 0 && read.bytes == candidates[place].1 {
            texts.insert(place, read.text);
        }
    }
    texts
}

/// How the new text differs from the old: in one number, by one, or in the condition alone; or in more.
fn change(old: &str, new: &str) -> Option<String> {
    let [(old_rest, old_numbers), (new_rest, new_numbers)] = [old, new].map(numbers);
    if old_rest == new_rest && !old.contains("rip") {
        let pairs = old_numbers.into_iter().zip(new_numbers);
        let mut differ = (1..).zip(pairs).filter(|(_, (old, new))| old != new);
        let (which, (from, to)) = differ.next()?;
        let by = match (is_next(from, to), is_next(to, from)) {
            (true, _) => "one more",
            (_, true) => "one less",
            _ => return None,
        };
        let on_stack = is_on_stack(old, which);
        let one = differ.next().is_none() && !on_stack;
        return one.then(|| format!("number {which} {by}"));
    }
    let split = |text: &str| {
        let (mnemonic, operands) = text.split_once(' ').unwrap_or((text, ""));
        (mnemonic.to_string(), operands.to_string())
    };
    let ((old, of_old), (new, of_new)) = (split(old), split(new));
    let both = |kind: &str| old.starts_with(kind) && new.starts_with(kind);
    let conditional = (both("set") || both("cmov") || both("j")) && is_near(&old, &new);
    let compares = both("cmp") && old.ends_with("ss") && new.ends_with("ss");
    let is_change = old != new && of_old == of_new && (conditional || compares);
    is_change.then(|| format!("made {new}"))
}

/// Whether this number of the text says where on the stack the compiler keeps something.
fn is_on_stack(text: &str, which: usize) -> bool {
    let Some((before, place)) = text.split_once('[') else {
        return false;
    };
    let first = 1 + before.matches("0x").count();
    place.starts_with("rsp") && which == first
}

/// Whether the second comes after the first, in 64 bits or in fewer.
fn is_next(one: u64, other: u64) -> bool {
    let all_ones = [u64::MAX, 0xFFFF_FFFF, 0xFFFF, 0xFF];
    one.wrapping_add(1) == other || (all_ones.contains(&one) && other == 0)
}

/// The text with its numbers taken out, and the numbers with their signs. A place in memory has one, which is
/// not always printed.
fn numbers(text: &str) -> (String, Vec<u64>) {
    let (mut rest, mut numbers) = (String::new(), vec![]);
    let text = match text
        .split_once('[')
        .and_then(|(_, rest)| rest.split_once(']'))
    {
        Some((place, _)) if !place.contains("0x") => text.replace(']', "+0x0]"),
        _ => text.to_string(),
    };
    let mut parts = text.split("0x");
    rest.push_str(parts.next().unwrap_or_default());
    for part in parts {
        let end = part
            .find(|c: char| !c.is_ascii_hexdigit())
            .unwrap_or(part.len());
        let number = u64::from_str_radix(&part[..end], 16).expect("a number");
        let negative = rest.ends_with('-');
        if negative || rest.ends_with('+') {
            rest.pop();
        }
        numbers.push(if negative {
            number.wrapping_neg()
        } else {
            number
        });
        rest.push('@');
        rest.push_str(&part[end..]);
    }
    (rest, numbers)
}
