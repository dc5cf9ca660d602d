//! One run of the comparison over a library with a bug in it: whether it was caught, and by which check.

use std::os::unix::process::CommandExt;
use std::path::PathBuf;
use std::process::{Command, Stdio};
use std::sync::atomic::{AtomicUsize, Ordering};
use std::sync::Mutex;

/// What the comparison said of a bug.
#[derive(Clone, Debug, PartialEq, Eq)]
pub enum Verdict {
    /// This check failed.
    Caught(String),
    /// No difference was found.
    Missed,
}

/// The comparison, and where its words may be kept.
pub struct Trials {
    pub compare: PathBuf,
    pub kept: PathBuf,
}

/// So many seconds for a call, at first and where it took longer.
const PATIENCE: [u32; 2] = [3, 20];

impl Trials {
    pub fn new(compare: &str, kept: &str) -> Self {
        Trials {
            compare: compare.into(),
            kept: kept.into(),
        }
    }

    /// Where a copy of the driver may stand for one run.
    pub fn copy(&self, name: usize) -> PathBuf {
        self.kept.join(format!("{name}.driver"))
    }

    /// Runs the comparison with the driver that these words start. A call that does not end is tried again, with
    /// more patience.
    pub fn run(&self, name: usize, words: &[String]) -> Verdict {
        let [first, second] = PATIENCE;
        let (verdict, ends) = self.run_once(name, words, first);
        let verdict = match ends {
            true => verdict,
            false => self.run_once(name, words, second).0,
        };
        let _ = std::fs::remove_file(self.copy(name));
        verdict
    }

    /// The verdict, and whether each call ended.
    fn run_once(&self, name: usize, words: &[String], patience: u32) -> (Verdict, bool) {
        let said = self.kept.join(format!("{name}.said"));
        let file = std::fs::File::create(&said).expect("a file for what is said");
        let status = Command::new(&self.compare)
            .arg("gate")
            .args(words)
            .env("RUST_BACKTRACE", "0")
            .env("COMPARE_PATIENCE", patience.to_string())
            .env("COMPARE_DRIVERS", "1")
            .stdin(Stdio::null())
            .stdout(Stdio::null())
            .stderr(file)
            .process_group(0)
            .status()
            .expect("the comparison runs");
        let lines = std::fs::read(&said).expect("what was said");
        std::fs::remove_file(&said).expect("what was said is there");
        if status.success() {
            return (Verdict::Missed, true);
        }
        let lines = String::from_utf8_lossy(&lines);
        let mut checks = lines.lines().filter_map(|line| {
            let (check, _) = line
                .strip_prefix("compare: ")?
                .split_once(" failed, seed ")?;
            Some(check.to_string())
        });
        let check = checks.next();
        let check = check.unwrap_or_else(|| panic!("the comparison itself: {lines}"));
        (Verdict::Caught(check), !lines.contains("no whole reply"))
    }

    /// Runs all of these, as many at once as there are processors, and gives what was said of each, which is also
    /// told at once.
    pub fn run_all<T: Sync>(
        &self,
        all: &[T],
        words: impl Fn(usize, &T) -> Vec<String> + Sync,
        tell: impl Fn(&T, &Verdict) + Sync,
    ) -> Vec<Verdict> {
        let next = AtomicUsize::new(0);
        let verdicts = Mutex::new(vec![Verdict::Missed; all.len()]);
        let work = || {
            while let Some((place, one)) = {
                let place = next.fetch_add(1, Ordering::Relaxed);
                all.get(place).map(|one| (place, one))
            } {
                let verdict = self.run(place, &words(place, one));
                tell(one, &verdict);
                verdicts.lock().expect("the verdicts")[place] = verdict;
            }
        };
        let at_once = std::thread::available_parallelism().map_or(1, usize::from);
        std::thread::scope(|scope| {
            for _ in 0..at_once {
                scope.spawn(work);
            }
        });
        verdicts.into_inner().expect("the verdicts")
    }
}

/// Says how many each check caught, most first, and how many were missed; gives whether any was.
pub fn report(what: &str, verdicts: &[Verdict]) -> bool {
    let mut checks: Vec<(usize, &str)> = vec![];
    for verdict in verdicts {
        let Verdict::Caught(check) = verdict else {
            continue;
        };
        match checks.iter_mut().find(|(_, name)| name == check) {
            Some((count, _)) => *count += 1,
            None => checks.push((1, check)),
        }
    }
    checks.sort_by(|one, other| other.cmp(one));
    for (count, check) in &checks {
        println!("{count:>6} by {check}");
    }
    let caught: usize = checks.iter().map(|(count, _)| count).sum();
    let (all, missed) = (verdicts.len(), verdicts.len() - caught);
    println!("planted: {all} {what}, {caught} caught, {missed} missed");
    missed > 0
}
