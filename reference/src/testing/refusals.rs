//! Calls of all kinds on any legal book: a refusal changes and carries nothing, an accepted call changes
//! the named entry alone or an asker's help count alone, and what else the book holds makes no difference.

use super::forms::{
    message, random_book, random_declaration, random_down, random_number, random_pool,
    redraw_helped, request_of, slots_from, FEW_HOUSES,
};
use super::random::Random;
use crate::{Declaration, Library, Outcome};
use std::ops::Range;

/// One publishing or receiving.
#[derive(Clone, Debug)]
enum Call {
    Publish(u32, Declaration),
    Receive(u32, Vec<u8>),
}

impl Call {
    fn make(&self, library: &mut impl Library, book: &mut [u8]) -> Outcome {
        match self {
            Call::Publish(number, declaration) => library.publish(book, *number, declaration),
            Call::Receive(house, message) => library.receive(book, *house, message),
        }
    }

    /// The entry that the call names, where it is in the book, and the declaration that it brings.
    fn names(&self, book: &[u8]) -> Option<(Named, Declaration)> {
        let [n, s, own] = [0, 1, 2].map(|place| usize::from(book[place]));
        let (number, sender, declaration) = match self {
            Call::Publish(number, declaration) => (*number as usize, own, *declaration),
            Call::Receive(_, bytes) => {
                let message = crate::read(bytes).message()?;
                let (number, sender) = (message.number, message.sender);
                (
                    usize::from(number),
                    usize::from(sender),
                    message.declaration,
                )
            }
        };
        let size = 2 * n + 3;
        let first = s + (number * n + sender) * size;
        let named = Named {
            published: (sender == own).then_some(number),
            entry: first..first + size,
        };
        (number < s && sender < n).then_some((named, declaration))
    }

    /// The asker, where the call brings as many bytes as a request has.
    fn asker(&self) -> Option<u32> {
        match self {
            Call::Receive(house, bytes) if bytes.len() == 11 => Some(*house),
            _ => None,
        }
    }

    /// Whether the call brings an ECHO or a READY, where it brings a message.
    fn vouches(&self) -> bool {
        matches!(self, Call::Receive(_, bytes) if bytes.len() == 36 && bytes[3] > 1)
    }
}

/// The slots of one entry, and of what was published there.
struct Named {
    published: Option<usize>,
    entry: Range<usize>,
}

impl Named {
    fn has(&self, slot: usize) -> bool {
        self.entry.contains(&slot) || self.published == Some(slot)
    }
}

/// A declaration of the pool, or at times any.
pub(super) fn random_told(random: &mut Random, pool: &[Declaration]) -> Declaration {
    match random.below(6) {
        0 => random_declaration(random),
        _ => random.pick(pool),
    }
}

/// A publishing, or a receiving.
fn random_call(random: &mut Random, book: &[u8], pool: &[Declaration]) -> Call {
    let declaration = random_told(random, pool);
    if random.chance(1, 5) {
        return Call::Publish(random_number(random, book[1].max(1)), declaration);
    }
    let (house, bytes) = random_receiving(random, book, &declaration);
    Call::Receive(house, bytes)
}

/// A message with this declaration, or a request, that is often right, and the house that it comes from.
pub(super) fn random_receiving(
    random: &mut Random,
    book: &[u8],
    declaration: &Declaration,
) -> (u32, Vec<u8>) {
    let (n, s) = (book[0].max(1), book[1].max(1));
    let season = u32::from_be_bytes([book[3], book[4], book[5], book[6]]);
    let season = season ^ u32::from(random.chance(1, 16));
    let mut house = random_number(random, n);
    let mut bytes = if random.chance(1, 5) {
        request_of(season).to_vec()
    } else {
        let kind = random.pick(&[1, 1, 1, 2, 2, 2, 2, 3, 3, 3, 3, 0, 4, 9]);
        let sender = random_number(random, n) as u8;
        let number = random_number(random, s) as u8;
        if kind == 1 && random.chance(3, 4) {
            house = u32::from(sender);
        }
        message(kind, season, sender, number, declaration).to_vec()
    };
    let length = bytes.len();
    match random.below(24) {
        0 => bytes[random.below(length)] ^= 1 << random.below(8),
        1 => bytes.truncate(random.below(length)),
        2 => bytes.extend(random.bytes(28)),
        3 => bytes.push(0),
        4 => bytes.truncate(11),
        _ => (),
    }
    (house, bytes)
}

/// A byte changed, a cut, or bytes too many: mostly no legal book any more.
fn damage(random: &mut Random, book: &mut Vec<u8>) {
    match random.below(5) {
        0 => {
            let length = random.below(book.len()).max(31);
            book.truncate(length);
        }
        1 => book.push(0),
        2 => {
            let place = random.below(31);
            book[place] ^= 1 << random.below(8);
        }
        3 => {
            let place = 29 + random.below(slots_from(book[0]) - 29);
            book[place] ^= 1 << random.below(4);
        }
        _ => {
            let from = slots_from(book[0]);
            let slot = from + 21 * random.below((book.len() - from) / 21);
            book[slot + random.below(21)] ^= 1 << random.below(8);
        }
    }
}

/// The slots of two books of the same size, side by side.
fn slots<'a>(one: &'a [u8], other: &'a [u8]) -> impl Iterator<Item = (&'a [u8], &'a [u8])> {
    let from = slots_from(one[0]);
    let slots = one[from..].chunks_exact(21);
    slots.zip(other[from..].chunks_exact(21))
}

/// Holds a call's outcome and the book afterwards to "every refusal leaves the lent buffer byte for byte
/// and carries no message and no delivery", and to "an accepted publication or message changes the named
/// entry alone", and of that only slots that were empty.
fn check(call: &Call, before: &[u8], outcome: &Outcome, after: &[u8]) {
    if outcome.answer != 0 {
        assert!(
            before == after,
            "{call:?} is refused by {} and writes",
            outcome.answer
        );
        assert_eq!(
            (outcome.message, outcome.delivery, outcome.helps),
            (None, None, false),
            "{call:?} is refused"
        );
        return;
    }
    if let Some(asker) = call.asker() {
        check_help(asker, before, outcome, after);
        return;
    }
    assert!(!outcome.helps, "{call:?} helps");
    let (named, declaration) = call.names(before).expect("an accepted call names an entry");
    let from = slots_from(before[0]);
    assert!(
        before[..from] == after[..from],
        "{call:?} changes the header or a help count"
    );
    for (place, (before, after)) in slots(before, after).enumerate() {
        if before != after {
            assert!(named.has(place), "{call:?} changes another entry");
            assert!(before == [0; 21], "{call:?} changes a full slot");
            assert!(
                after[0] == 1 && after[1..] == declaration,
                "{call:?} fills in something else"
            );
        }
    }
    if let Some(given) = outcome.message {
        let given = crate::read(&given)
            .message()
            .expect("a message given is well formed");
        let entry = Call::Receive(0, given.to_bytes().to_vec()).names(before);
        let (entry, given) = entry.expect("a message given names an entry in the book");
        assert_eq!(
            (entry.entry, given),
            (named.entry, declaration),
            "{call:?} gives"
        );
    }
    assert!(
        outcome
            .delivery
            .is_none_or(|delivery| delivery == declaration),
        "{call:?} delivers"
    );
}

/// "At most d times for each asker": an accepted request counts the help, and changes no other byte; there
/// is no message and no delivery.
fn check_help(asker: u32, before: &[u8], outcome: &Outcome, after: &[u8]) {
    assert_eq!(
        (outcome.message, outcome.delivery, outcome.helps),
        (None, None, true),
        "a request of house {asker}"
    );
    let mut expected = before.to_vec();
    let helped = &mut expected[31 + asker as usize];
    *helped += 1;
    assert!(*helped <= before[30], "house {asker} is helped past d");
    assert!(after == expected, "the book after a request of {asker}");
}

/// "Two legal books that agree on n, S, own number, season, sheet and one entry give the same answer,
/// message and delivery to any publishing or receiving that names that entry, and end agreeing on it":
/// they agree on f as well, and on neither d nor the help counts.
fn check_neighbour(
    library: &mut impl Library,
    random: &mut Random,
    call: &Call,
    [before, after]: [&[u8]; 2],
    outcome: &Outcome,
) {
    let Some((named, _)) = call.names(before) else {
        return;
    };
    let mut other = before.to_vec();
    redraw_helped(random, &mut other);
    redraw_slots(random, &mut other, |place| !named.has(place));
    let header = other[..slots_from(before[0])].to_vec();
    assert_eq!(
        call.make(library, &mut other),
        *outcome,
        "{call:?} beside other entries, d and help counts"
    );
    assert!(
        other.starts_with(&header),
        "{call:?} changes the header or a help count"
    );
    for (place, (after, other)) in slots(after, &other).enumerate() {
        assert!(
            !named.has(place) || after == other,
            "{call:?} ends apart beside other entries"
        );
    }
}

/// Empties or fills half of these slots.
fn redraw_slots(random: &mut Random, book: &mut [u8], which: impl Fn(usize) -> bool) {
    let from = slots_from(book[0]);
    for (place, slot) in book[from..].chunks_exact_mut(21).enumerate() {
        if which(place) && random.chance(1, 2) {
            slot.fill(0);
            if random.chance(1, 2) {
                slot.copy_from_slice(&random.bytes(21));
                slot[0] = 1;
            }
        }
    }
}

/// A request is answered by n, the season, d and this asker's count: two books that agree on these answer
/// alike.
fn check_other_asker(
    library: &mut impl Library,
    random: &mut Random,
    call: &Call,
    before: &[u8],
    outcome: &Outcome,
) {
    let Some(asker) = call.asker() else {
        return;
    };
    let [n, d] = [before[0], before[30]];
    let mut other = before.to_vec();
    redraw_slots(random, &mut other, |_| true);
    other[29] = random_down(random, n);
    for house in (0..n).filter(|house| u32::from(*house) != asker) {
        other[31 + usize::from(house)] = random.below(usize::from(d) + 1) as u8;
    }
    let lent = other.clone();
    let answered = call.make(library, &mut other);
    assert_eq!(answered, *outcome, "{call:?} beside other askers");
    check(call, &lent, &answered, &other);
}

/// The same call where f is another: the answer is the same, and only ECHOes and READYs may give or deliver
/// something else. Whether they do.
fn other_f_differs(
    library: &mut impl Library,
    random: &mut Random,
    call: &Call,
    before: &[u8],
    outcome: &Outcome,
) -> bool {
    let mut other = before.to_vec();
    other[29] = random_down(random, before[0]);
    let answered = call.make(library, &mut other);
    let differs = answered != *outcome;
    let may_differ = call.vouches() && other[29] != before[29];
    assert_eq!(answered.answer, outcome.answer, "{call:?} with another f");
    assert!(!differs || may_differ, "{call:?} with another f");
    differs
}

/// The same again, and another declaration: "this kind was already accepted from this house on this entry",
/// with the same declaration or with a different one; and "already published at this number", whatever is
/// published.
fn check_again(
    library: &mut impl Library,
    random: &mut Random,
    call: &Call,
    after: &[u8],
    pool: &[Declaration],
) {
    let other = random.pick(pool);
    let (again, mut answers) = match call {
        Call::Publish(number, _) => (Call::Publish(*number, other), [8, 8]),
        Call::Receive(house, bytes) if bytes.len() == 36 => {
            let same = bytes[16..] == other;
            let bytes = [&bytes[..16], &other[..]].concat();
            let answers = [7, if same { 7 } else { 13 }];
            (Call::Receive(*house, bytes), answers)
        }
        Call::Receive(..) => return,
    };
    if library.judge(&after[7..29], &other) != 0 {
        answers[1] = 5;
    }
    for (call, refused) in [call, &again].into_iter().zip(answers) {
        let mut book = after.to_vec();
        let outcome = call.make(library, &mut book);
        assert_eq!(outcome.answer, refused, "{call:?} again");
        check(call, after, &outcome, &book);
    }
}

/// Of so many books enough are of many houses.
const ENOUGH_FOR_MANY: usize = 400;

/// So many books, and some calls on each. Every answer of publishing and receiving has to come up, and where houses
/// are many too.
pub fn calls(library: &mut impl Library, seed: u64, books: usize) {
    let mut random = Random::new(seed);
    let mut answers = [0usize; 15];
    let mut of_many = [0usize; 15];
    let (mut given, mut delivered, mut helped, mut differ) = (0, 0, 0, 0);
    for _ in 0..books {
        let pool = random_pool(&mut random);
        let mut book = random_book(&mut random, &pool);
        if random.chance(1, 8) {
            damage(&mut random, &mut book);
        }
        for _ in 0..12 {
            let call = random_call(&mut random, &book, &pool);
            let before = book.clone();
            let outcome = call.make(library, &mut book);
            check(&call, &before, &outcome, &book);
            if outcome.answer != 1 {
                check_neighbour(library, &mut random, &call, [&before, &book], &outcome);
                check_other_asker(library, &mut random, &call, &before, &outcome);
                let differs = other_f_differs(library, &mut random, &call, &before, &outcome);
                differ += usize::from(differs);
            }
            if outcome.answer == 0 {
                check_again(library, &mut random, &call, &book, &pool);
            }
            answers[usize::from(outcome.answer)] += 1;
            of_many[usize::from(outcome.answer)] += usize::from(book[0] > FEW_HOUSES);
            given += usize::from(outcome.message.is_some());
            delivered += usize::from(outcome.delivery.is_some());
            helped += usize::from(outcome.helps);
        }
    }
    let seen = [0, 1, 2, 3, 4, 5, 6, 7, 8, 13, 14]
        .iter()
        .all(|&answer| answers[answer] > 0 && (books < ENOUGH_FOR_MANY || of_many[answer] > 0));
    let came = [given, delivered, helped, differ];
    assert!(
        seen && came.iter().all(|&count| count > 0),
        "too few calls to tell: {answers:?}, of many houses {of_many:?}, {came:?}"
    );
}
