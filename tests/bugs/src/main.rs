//! Runs the comparison over libraries with one bug each, and says which it does not catch.
//!
//! `bugs reference COMPARE KEPT OVER [MODULE]` plants the bugs of a list in the reference, or those of one module.
//! `bugs archive COMPARE KEPT CLANG OBJDUMP ARCHIVE WORDS..` changes one operand in copies of the driver, which the last word names; with
//! `bugs same ..` those changes are run that are listed as making no difference. `bugs changes KEPT CLANG OBJDUMP
//! ARCHIVE DRIVER` prints all changes, and runs none.
#![forbid(unsafe_code)]

mod list;
mod listing;
mod operands;
mod program;
mod trial;

use std::path::Path;
use trial::{Trials, Verdict};

const BUGS: &str = include_str!("../reference.txt");
const SAME: &str = include_str!("../archive.txt");

fn main() {
    let words: Vec<String> = std::env::args().skip(1).collect();
    let missed = match words.iter().map(String::as_str).collect::<Vec<_>>()[..] {
        ["reference", compare, kept, over, ref module @ ..] => {
            reference(&Trials::new(compare, kept), over, module.first().copied())
        }
        [what @ ("archive" | "same"), compare, kept, clang, objdump, archive, _, ..] => {
            let trials = Trials::new(compare, kept);
            let tools = [clang, objdump, archive];
            archive_changes(&trials, what == "same", tools, &words[6..])
        }
        ["changes", kept, clang, objdump, archive, driver] => {
            for change in changes([clang, objdump, archive, driver], Path::new(kept)) {
                println!("{}", change.name);
            }
            false
        }
        _ => panic!("bugs reference .. | bugs archive .. | bugs changes .."),
    };
    std::process::exit(i32::from(missed));
}

/// The bugs of the list, in the reference or in one module of it. Whether one is missed.
fn reference(trials: &Trials, over: &str, module: Option<&str>) -> bool {
    let words = |number: usize| vec![over.to_string(), number.to_string()];
    let none = trials.run(0, &words(0));
    assert_eq!(none, Verdict::Missed, "with no bug there is no difference");
    let mut bugs = list::bugs(BUGS);
    bugs.retain(|bug| module.is_none_or(|module| bug.file == module));
    assert!(!bugs.is_empty(), "no bug is listed for this module");
    let tell = |bug: &list::Bug, verdict: &Verdict| {
        if *verdict == Verdict::Missed {
            let (number, file, after, old) = (bug.number, bug.file, bug.after, bug.old);
            println!(
                "missed: bug {number} in {file}: {after} {old} made {}",
                bug.new
            );
        }
    };
    let verdicts = trials.run_all(&bugs, |_, bug| words(bug.number), tell);
    trial::report("bugs in the reference", &verdicts)
}

/// All changes of one operand of the archive's code, as it stands in the driver.
fn changes([clang, objdump, archive, driver]: [&str; 4], kept: &Path) -> Vec<operands::Change> {
    let functions: Vec<String> = listing::listing(objdump, Path::new(archive))
        .into_iter()
        .map(|instruction| instruction.function)
        .collect();
    let mut code = listing::listing(objdump, Path::new(driver));
    code.retain(|instruction| functions.contains(&instruction.function));
    operands::changes(&code, clang, objdump, kept)
}

/// Copies of the driver with one operand of the archive's code changed. Whether one is missed that is not in
/// the list of those that make no difference; or, of those in the list, whether one is caught.
fn archive_changes(
    trials: &Trials,
    listed: bool,
    [clang, objdump, archive]: [&str; 3],
    words: &[String],
) -> bool {
    let (driver, others) = words.split_last().expect("the words that run the driver");
    let changes = changes([clang, objdump, archive, driver], &trials.kept);
    let same = SAME.lines().filter_map(|line| line.strip_prefix("same: "));
    let same: Vec<&str> = same.collect();
    for pattern in &same {
        let is_there = |change: &operands::Change| list::matches(pattern, &change.name);
        if !changes.iter().any(is_there) {
            println!("listed, and no longer there: {pattern}");
        }
    }
    let is_same = |change: &operands::Change| same.iter().any(|p| list::matches(p, &change.name));
    let (run, left): (Vec<_>, Vec<_>) = changes
        .into_iter()
        .partition(|change| is_same(change) == listed);
    println!("planted: {} to run, {} not", run.len(), left.len());
    let program = program::Program::read(Path::new(driver));
    let words = |place: usize, at: u64, bytes: &[u8]| {
        let copy = trials.copy(place);
        program.write(&copy, at, bytes);
        let copy = copy.to_string_lossy().into_owned();
        others.iter().cloned().chain([copy]).collect::<Vec<_>>()
    };
    let none = trials.run(0, &words(0, run[0].at, &[]));
    assert_eq!(
        none,
        Verdict::Missed,
        "with no change there is no difference"
    );
    let tell = |change: &operands::Change, verdict: &Verdict| match verdict {
        Verdict::Missed if !listed => println!("missed: {}", change.name),
        Verdict::Caught(_) if listed => println!("listed, and caught: {}", change.name),
        _ => (),
    };
    let change = |place, change: &operands::Change| words(place, change.at, &change.bytes);
    let verdicts = trials.run_all(&run, change, tell);
    let missed = trial::report("changes of one operand of the archive", &verdicts);
    match listed {
        true => verdicts.iter().any(|verdict| *verdict != Verdict::Missed),
        false => missed,
    }
}
