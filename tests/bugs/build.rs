//! Plants every bug of `reference.txt` in a copy of the reference's sources, each behind its number: `over` is
//! built over that copy, and the number that it is started with says which bug is there.

use std::fmt::Write;
use std::path::Path;

/// The reference's modules, without the tests that it carries.
const MODULES: [&str; 7] = [
    "answer", "book", "card", "message", "roll", "sheet", "steps",
];

#[path = "src/list.rs"]
mod list;

fn main() {
    let from = Path::new("../../reference/src");
    let out = std::env::var("OUT_DIR").expect("where to write");
    println!("cargo::rerun-if-changed=reference.txt");
    let list = std::fs::read_to_string("reference.txt").expect("the list");
    let bugs = list::bugs(&list);
    let mut root = String::new();
    for module in MODULES {
        let file = from.join(module).with_extension("rs");
        println!("cargo::rerun-if-changed={}", file.display());
        let source = std::fs::read_to_string(&file).expect("a module of the reference");
        let of_module: Vec<&list::Bug> = bugs.iter().filter(|bug| bug.file == module).collect();
        let source = plant(&source.replace("const fn ", "fn "), &of_module);
        let to = Path::new(&out).join(module).with_extension("rs");
        std::fs::write(&to, source).expect("a planted module");
        writeln!(root, "#[path = {to:?}]\n#[allow(warnings)]\nmod {module};").expect("a line");
    }
    std::fs::write(Path::new(&out).join("root.rs"), root).expect("the root");
}

/// The source with each of these bugs at its place.
fn plant(source: &str, bugs: &[&list::Bug]) -> String {
    let place = |bug: &list::Bug| {
        let before = match bug.after {
            "" => String::new(),
            after => format!("{after} "),
        };
        let text = format!("{before}{}", bug.old);
        let found = source.matches(&text).count();
        assert_eq!(found, 1, "{}: {text} is there {found} times", bug.file);
        source.find(&text).expect("a place") + before.len()
    };
    let mut places: Vec<(usize, &list::Bug)> = bugs.iter().map(|bug| (place(bug), *bug)).collect();
    places.sort_by_key(|(place, bug)| (*place, bug.number));
    let mut planted = String::new();
    let mut from = 0;
    for here in places.chunk_by(|one, other| one.0 == other.0) {
        let (place, old) = (here[0].0, here[0].1.old);
        let mut code = String::new();
        for (_, bug) in here {
            let (number, new) = (bug.number, bug.new);
            write!(code, "if crate::planted({number}) {{ {new} }} else ").expect("a line");
        }
        planted.push_str(&source[from..place]);
        planted.push_str(&match old.ends_with(';') {
            true => format!("{code}{{ {old} }}"),
            false => format!("({code}{{ {old} }})"),
        });
        from = place + old.len();
    }
    planted.push_str(&source[from..]);
    planted
}
