//! Judging at edges drawn at random, and legal books with one thing damaged: what the two libraries say of
//! them has to be the same, whatever it is.

use reference::testing::colonies::random_weight;
use reference::testing::forms::{
    declaration, fresh_book, has_minus_zero, is_below_zero, is_measurable, message, random_book,
    random_near_zero, random_pool, random_reading, request_of, sheet_of_bits, slots_from,
    MINUS_ZERO, SEASON,
};
use reference::testing::random::Random;
use reference::testing::season::Rules;
use reference::{Declaration, Library, SHEET};

/// A cap, colonies and kilograms: few colonies or none; or a product near the kilograms, near 2^32 or near 2^64.
fn near_product(random: &mut Random) -> [u32; 3] {
    if random.chance(1, 3) {
        return random_weight(random);
    }
    let a = match random.below(4) {
        0 => u32::MAX - random.below(3) as u32,
        1 => 1 << random.below(32),
        2 => 1 + random.below(100_000) as u32,
        _ => random.word().max(1),
    };
    let full = (1u64 << 32) / u64::from(a);
    let b = match random.below(4) {
        0 => (full + random.below(3) as u64).saturating_sub(1) as u32,
        1 => u32::MAX - random.below(3) as u32,
        2 => random.below(70_000) as u32,
        _ => random.word(),
    };
    let product = u64::from(a) * u64::from(b);
    let near = (random.below(3) as u32).wrapping_sub(1);
    let kilograms = match random.below(4) {
        0 => random.word(),
        1 => product.min(u64::from(u32::MAX)) as u32,
        _ => (product as u32).wrapping_add(near),
    };
    [a, b, kilograms]
}

/// A gate's kind, low and high, the limits near this reading; at times in no legal form.
fn near_gate(random: &mut Random, reading: u32) -> (u8, u32, u32) {
    let (unsigned, wide) = (reading & 0x7FFF_FFFF, f32::MAX.to_bits());
    let mut limit = || {
        let near = random.pick(&[reading, unsigned, unsigned, unsigned]);
        let limit = match random.below(8) {
            0 | 1 => random_reading(random),
            2 => reading ^ 0x8000_0000,
            3 => random.pick(&[0, MINUS_ZERO]),
            _ => near.wrapping_add(random.below(5) as u32).wrapping_sub(2),
        };
        match is_measurable(limit) || random.chance(1, 2) {
            true => limit,
            false => random.pick(&[0, MINUS_ZERO, wide, wide]),
        }
    };
    let (low, high) = (limit(), limit());
    match random.below(16) {
        0..=4 => (0, 0, 0),
        5..=9 => (1, 0, high),
        10..=14 if f32::from_bits(low) > f32::from_bits(high) => (2, high, low),
        10..=14 => (2, low, high),
        _ => (random.below(4) as u8, low, high),
    }
}

/// A reading near an edge: of the subnormals, of the zeros, of the infinities; or a NaN; or any.
fn edge(random: &mut Random) -> u32 {
    let near = [0, 0x0080_0000, 0x3F80_0000, 0x7F80_0000, 0x7FC0_0000];
    let sign = u32::from(random.chance(1, 6)) << 31;
    match random.below(6) {
        0 | 1 => random_reading(random),
        2 | 3 => random.word() & 0x00FF_FFFF | sign,
        4 => random_near_zero(random),
        _ => {
            let place = random.pick(&near) + 2;
            (place + random.below(5) as u32).wrapping_sub(4) ^ sign
        }
    }
}

/// What is to come about at zero when judging at edges.
const AT_ZERO: [&str; 4] = [
    "5 to a reading below zero, with nothing else in the way",
    "0 to a reading of minus zero",
    "10 to a limit below zero, which would be legal with no sign",
    "0 by a limit of minus zero",
];

/// Which of these came about.
fn at_zero(
    sheet: &[u8; SHEET],
    gates: [(u8, u32, u32); 2],
    v: &Declaration,
    judged: u8,
) -> [bool; AT_ZERO.len()] {
    let rules = Rules {
        sheet: *sheet,
        ..Rules::new(1, 1, &[])
    };
    let unsigned = |bits: u32| bits & 0x7FFF_FFFF;
    let with_none = gates.map(|(kind, low, high)| (kind, unsigned(low), unsigned(high)));
    let would_be_legal = reference::judge(&sheet_of_bits(0, with_none), v) != 10;
    let limits = gates.map(|(_, low, high)| [low, high]).concat();
    [
        judged == 5 && rules.is_only_below_zero(v),
        judged == 0 && has_minus_zero(v),
        judged == 10 && limits.iter().any(|bits| is_below_zero(*bits)) && would_be_legal,
        judged == 0 && limits.contains(&MINUS_ZERO),
    ]
}

/// Judges at edges; and in some rounds publishes and receives what was judged.
pub fn judging(library: &mut impl Library, seed: u64, rounds: usize) {
    let mut random = Random::new(seed);
    let mut answers = [0usize; 12];
    let mut few = [[0usize; 12]; 3];
    let mut zeros = [0usize; AT_ZERO.len()];
    for _ in 0..rounds {
        let [cap, colonies, kilograms] = near_product(&mut random);
        let readings = [0, 1].map(|_| edge(&mut random));
        let gates = readings.map(|reading| near_gate(&mut random, reading));
        let sheet = sheet_of_bits(cap, gates);
        let v = declaration(random.word(), colonies, kilograms, readings);
        let judged = library.judge(&sheet, &v);
        answers[usize::from(judged)] += 1;
        let came = at_zero(&sheet, gates, &v, judged);
        for (count, came) in zeros.iter_mut().zip(came) {
            *count += usize::from(came);
        }
        if let Some(few) = few.get_mut(colonies as usize) {
            few[usize::from(judged)] += 1;
        }
        if random.chance(1, 4) {
            let mut book = fresh_book(1, 1, 0, SEASON, &sheet);
            let expected = if judged == 10 { 1 } else { judged };
            let published = library.publish(&mut book, 0, &v).answer;
            assert_eq!(published, expected, "published as it is judged");
            for kind in 1..=3 {
                let bytes = message(kind, SEASON, 0, 0, &v);
                let received = library.receive(&mut book, 0, &bytes).answer;
                assert_eq!(received, expected, "kind {kind} as it is judged");
            }
        }
    }
    let seen = [0, 5, 10].iter().all(|&answer| answers[answer] > 0);
    assert!(seen, "too few rounds to tell: {answers:?}");
    let least = [
        (0, 5, rounds / 16),
        (1, 0, rounds / 200),
        (1, 5, rounds / 64),
        (2, 0, rounds / 200),
        (2, 5, rounds / 64),
    ];
    let enough =
        |(colonies, answer, least): &(usize, usize, usize)| few[*colonies][*answer] >= *least;
    assert!(least.iter().all(enough), "few colonies too seldom: {few:?}");
    let rare = AT_ZERO.iter().zip(zeros);
    let rare: Vec<_> = rare.filter(|(_, count)| *count < rounds / 200).collect();
    assert!(rare.is_empty(), "too seldom at zero: {rare:?}");
}

/// A legal book with one bit flipped, cut, lengthened, or with two pieces exchanged.
fn damaged(random: &mut Random, book: &[u8]) -> Vec<u8> {
    let mut book = book.to_vec();
    let place = random.below(book.len());
    match random.below(8) {
        0 => book.truncate(place),
        1 => book.truncate(book.len() - 1),
        2 => {
            let more = 1 + random.below(64);
            book.extend(random.bytes(more));
        }
        3 => book.rotate_left(1 + place % 21),
        4 => {
            let head = place % slots_from(book[0]);
            book[head] ^= 1 << random.below(8);
        }
        5 => {
            let from = slots_from(book[0]);
            let slot = from + (place - place % 21) % (book.len() - from);
            let presence = random.pick(&[0, 1, 2, 255]);
            book[slot] = presence;
        }
        _ => book[place] ^= 1 << random.below(8),
    }
    book
}

/// Legal books, reachable or not, each damaged in several ways.
pub fn damaged_books(library: &mut impl Library, seed: u64, books: usize) {
    let mut random = Random::new(seed);
    for _ in 0..books {
        let pool = random_pool(&mut random);
        let book = random_book(&mut random, &pool);
        let season = u32::from_be_bytes([book[3], book[4], book[5], book[6]]);
        let request = request_of(season);
        for _ in 0..4 {
            let mut book = damaged(&mut random, &book);
            let v = random.pick(&pool);
            let [sender, number, kind] = [3, 2, 3].map(|most| random.below(most) as u8);
            let bytes = message(1 + kind, season, sender, number, &v);
            library.waiting(&book);
            library.come_back(&book);
            library.sent(&book, 1 + kind, u32::from(sender), u32::from(number));
            library.receive(&mut book, u32::from(sender), &request);
            library.publish(&mut book, u32::from(number), &v);
            library.receive_entry(&mut book.clone(), u32::from(sender), &bytes);
            library.receive(&mut book, u32::from(sender), &bytes);
            library.receive_entry(&mut book, u32::from(sender), &request);
        }
    }
}
