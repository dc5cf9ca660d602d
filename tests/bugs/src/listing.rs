//! Machine code as a disassembler prints it, GNU's or LLVM's: addresses, bytes and text.

use std::path::Path;
use std::process::Command;

/// One instruction.
#[derive(Clone, Debug)]
pub struct Instruction {
    pub function: String,
    pub at: u64,
    pub bytes: Vec<u8>,
    /// Mnemonic and operands, the same by both disassemblers; where a jump or a call goes is left out.
    pub text: String,
}

/// The instructions of a file, in order.
pub fn listing(objdump: &str, file: &Path) -> Vec<Instruction> {
    let version = Command::new(objdump).arg("--version").output();
    let version = version.expect("a disassembler runs").stdout;
    let is_llvm = String::from_utf8_lossy(&version).contains("LLVM");
    let output = Command::new(objdump)
        .args(["-d", "-w", "-M", "intel"])
        .args(is_llvm.then_some("--print-imm-hex"))
        .arg(file)
        .output()
        .expect("a disassembler runs");
    let said = String::from_utf8_lossy(&output.stderr);
    assert!(output.status.success(), "{objdump}: {said}");
    let mut function = String::new();
    let mut all = vec![];
    for line in String::from_utf8_lossy(&output.stdout).lines() {
        if let Some((_, name)) = line.strip_suffix(">:").and_then(|l| l.split_once(" <")) {
            function = name.to_string();
        }
        let Some((at, rest)) = line.split_once(':') else {
            continue;
        };
        let Ok(at) = u64::from_str_radix(at.trim(), 16) else {
            continue;
        };
        let mut words = rest.split_whitespace().peekable();
        let mut bytes = vec![];
        while let Some(byte) = words.peek().and_then(|word| byte(word)) {
            bytes.push(byte);
            words.next();
        }
        all.push(Instruction {
            function: function.clone(),
            at,
            bytes,
            text: plain(words),
        });
    }
    all.retain(|instruction| !instruction.bytes.is_empty());
    all
}

/// A byte is printed as two digits.
fn byte(word: &str) -> Option<u8> {
    let digits = word.len() == 2 && word.bytes().all(|digit| digit.is_ascii_hexdigit());
    u8::from_str_radix(word, 16).ok().filter(|_| digits)
}

/// The text in one form: no comment, no place that is jumped to, no spaces in the operands; nothing of what
/// only fills a gap.
fn plain<'a>(mut words: impl Iterator<Item = &'a str>) -> String {
    let mnemonic = words.next().unwrap_or_default().to_lowercase();
    if mnemonic.starts_with('j') || mnemonic.starts_with("call") {
        return mnemonic;
    }
    let operands: String = words.take_while(|word| !word.starts_with('#')).collect();
    let operands = operands.to_lowercase();
    if mnemonic == "nop" || mnemonic == "data16" || operands.contains("nop") {
        return "nop".to_string();
    }
    let same = [("+0x0]", "]"), ("ptr[", " ptr ["), ("*1", "")];
    let operands = same
        .iter()
        .fold(operands, |operands, (from, to)| operands.replace(from, to));
    let operands = negative(&register_first(&operands));
    format!("{mnemonic} {operands}").trim_end().to_string()
}

/// `2*rax` as `rax*2`.
fn register_first(operands: &str) -> String {
    let Some((head, tail)) = operands.split_once('*') else {
        return operands.to_string();
    };
    let times = head.chars().next_back().filter(|c| "248".contains(*c));
    let (Some(times), Some(before)) = (times, head.get(..head.len() - 1)) else {
        return operands.to_string();
    };
    if before.ends_with(char::is_alphanumeric) {
        return operands.to_string();
    }
    let end = tail.find(|c: char| !c.is_alphanumeric());
    let (register, rest) = tail.split_at(end.unwrap_or(tail.len()));
    format!("{before}{register}*{times}{rest}")
}

/// A last number of 64 bits that is nearly all ones, as a negative one.
fn negative(operands: &str) -> String {
    let (head, number) = operands.split_at(operands.len().saturating_sub(16));
    let head = head.strip_suffix("0x");
    match (head, u64::from_str_radix(number, 16)) {
        (Some(head), Ok(number)) if number >> 63 == 1 => {
            format!("{head}-{:#x}", number.wrapping_neg())
        }
        _ => operands.to_string(),
    }
}
