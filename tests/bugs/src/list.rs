//! The lists. Of bugs: `file:`, `after:` and `old:` name a place, and each `new:` line below them is a bug there.
//! Of changes that make no difference: `same:` lines, in which `*` stands for anything.

/// A bug, numbered from 1.
pub struct Bug<'a> {
    pub number: usize,
    /// The module of the reference.
    pub file: &'a str,
    /// What stands before the place, or nothing.
    pub after: &'a str,
    pub old: &'a str,
    pub new: &'a str,
}

/// The bugs of a list. A line that begins otherwise says something about them.
pub fn bugs(list: &str) -> Vec<Bug<'_>> {
    let mut bugs = vec![];
    let [mut file, mut after, mut old] = [""; 3];
    for line in list.lines() {
        match line.split_once(": ") {
            Some(("file", name)) => file = name,
            Some(("after", text)) => (after, old) = (text, ""),
            Some(("old", text)) if old.is_empty() => old = text,
            Some(("old", text)) => (after, old) = ("", text),
            Some(("new", new)) => bugs.push(Bug {
                number: bugs.len() + 1,
                file,
                after,
                old,
                new,
            }),
            _ => (),
        }
    }
    bugs
}

/// Whether a text is as a pattern says.
#[allow(dead_code, reason = "the build script has no use for it")]
pub fn matches(pattern: &str, text: &str) -> bool {
    let mut parts = pattern.split('*');
    let first = parts.next().unwrap_or_default();
    let Some(mut rest) = text.strip_prefix(first) else {
        return false;
    };
    let parts: Vec<&str> = parts.collect();
    let Some((last, middle)) = parts.split_last() else {
        return rest.is_empty();
    };
    for part in middle {
        let Some(at) = rest.find(part) else {
            return false;
        };
        rest = &rest[at + part.len()..];
    }
    rest.ends_with(last)
}
