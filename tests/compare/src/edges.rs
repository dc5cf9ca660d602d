//! Every size, every length, every bit and every foreign number, where they can be counted out.

use reference::testing::forms::{
    declaration, fresh, fresh_book, honey, message, open_sheet, request_of, sheet, slots_from,
    with_readings, FEW_HOUSES, OPEN, SEASON,
};
use reference::testing::openings::CEILING;
use reference::testing::random::Random;
use reference::{Gate, Library, MOST_HOUSES, MOST_NUMBERS};

/// All sizes, but of many houses with one number and with the most: opened with each own number and some f, in
/// buffers that fit and that do not; then the last
/// entry, from the publication to the delivery, with all of it again, another in its place, one with no colonies
/// and one with a reading below zero; and the last asker.
pub fn sizes(library: &mut impl Library) {
    let [houses, numbers] = [MOST_HOUSES, MOST_NUMBERS].map(u32::from);
    for (n, s) in (1..=houses).flat_map(|n| (1..=numbers).map(move |s| (n, s))) {
        if n > u32::from(FEW_HOUSES) && ![1, numbers].contains(&s) {
            continue;
        }
        let (answer, length) = library.length(n, s);
        assert_eq!(answer, 0, "the length of {n} and {s}");
        let mut book = vec![];
        let (f, d) = (((n - 1) / 2).min(s), n % 9);
        for (own, buffer, expected) in (0..n)
            .map(|own| (own, length, 0))
            .chain([(n, length, 9), (0, length - 1, 11), (0, length + 1, 11)])
            .chain([(0, CEILING, 11), (n - 1, length, 0)])
        {
            book = vec![0xEE; buffer];
            let answer = library.open(&mut book, n, s, own, f, d, SEASON, &open_sheet());
            assert_eq!(answer, expected, "opening {n} and {s} as {own}");
        }
        last_entry(library, &mut book, n, s);
        last_asker(library, &mut book, n, d);
    }
}

/// The last house is helped d times and not once more.
fn last_asker(library: &mut impl Library, book: &mut [u8], n: u32, d: u32) {
    for time in 0..=d {
        let answer = library.receive(book, n - 1, &request_of(SEASON)).answer;
        let enough = if time < d { 0 } else { 14 };
        assert_eq!(answer, enough, "house {} of {n}, d = {d}", n - 1);
        let returned = library.come_back(book).request;
        assert_eq!(returned, Some(request_of(SEASON)), "a return of {n}");
    }
}

/// The entry of the last sender and number in that sender's own book.
fn last_entry(library: &mut impl Library, book: &mut [u8], n: u32, s: u32) {
    let (v, other, bare) = (honey(77, 40, 800), honey(77, 40, 799), honey(77, 0, 0));
    let below = with_readings(&v, [17.5f32.to_bits(), 0x8000_0001]);
    let bytes_of = |kind, v| message(kind, SEASON, n as u8 - 1, s as u8 - 1, v);
    let bytes = |kind| bytes_of(kind, &v);
    for (v, kind) in [&bare, &below]
        .iter()
        .flat_map(|v| [(v, 1), (v, 2), (v, 3)])
    {
        let refused = library.receive(book, n - 1, &bytes_of(kind, v)).answer;
        assert_eq!(refused, 5, "kind {kind} of {v:02X?} at {n} and {s}");
    }
    let published = [bare, below, v, v, bare, below];
    let published = published.map(|v| library.publish(book, s - 1, &v).answer);
    assert_eq!(
        published,
        [5, 5, 0, 8, 5, 5],
        "publishing twice at {n} and {s}"
    );
    let sends = [0, 1].map(|_| library.receive(book, n - 1, &bytes(1)).answer);
    assert_eq!(sends, [0, 7], "a SEND twice at {n} and {s}");
    let mut deliveries = 0;
    for (kind, house) in [2, 3]
        .iter()
        .flat_map(|kind| (0..n).map(move |h| (kind, h)))
    {
        let outcome = library.receive(book, house, &bytes(*kind));
        assert_eq!(outcome.answer, 0, "kind {kind} from {house} of {n}");
        deliveries += usize::from(outcome.delivery.is_some());
        let waits = library.waiting(book).entry.is_some();
        assert_eq!(waits, deliveries == 0, "waiting until the delivery");
    }
    for kind in 1..=3 {
        let sent = library.sent(book, kind, n - 1, s - 1).message;
        assert_eq!(sent, Some(bytes(kind)), "sent again at {n} and {s}");
        let again = [&v, &other, &bare, &below].map(|v| bytes_of(kind, v));
        let again = again.map(|bytes| library.receive(book, n - 1, &bytes).answer);
        assert_eq!(again, [7, 13, 5, 5], "kind {kind} again at {n} and {s}");
    }
    assert_eq!(deliveries, 1, "deliveries at {n} and {s}");
}

/// A season, a sheet, a declaration and numbers in which no two bytes are alike, through every call: a byte
/// that is taken from, or put in, another place than its own is seen.
pub fn unlike_bytes(library: &mut impl Library) {
    let limit = f32::from_bits;
    let sheet = sheet(
        0xF1E2_D3C4,
        Gate::Between(limit(0x3112_2334), limit(0x4556_6778)),
        Gate::Between(limit(0x359A_ABBC), limit(0x3ECD_DEEF)),
    );
    let v = declaration(
        0x8192_A3B4,
        0x0506_0708,
        0x1718_191A,
        [0x412B_3C4D, 0x3E6F_7081],
    );
    let (season, [n, s, own, f, d]) = (0xD5E6_F708, [7, 4, 5, 2, 6]);
    let (_, length) = library.length(n, s);
    let mut book = vec![0x5A; length];
    let opened = library.open(&mut book, n, s, own, f, d, season, &sheet);
    let answers = [opened, library.judge(&sheet, &v)];
    assert_eq!(answers, [0; 2], "opened and judged");
    assert_eq!(library.publish(&mut book, 3, &v).answer, 0, "published");
    for (kind, house) in [
        (1, 5),
        (2, 1),
        (2, 6),
        (3, 2),
        (3, 6),
        (3, 4),
        (3, 0),
        (3, 5),
    ] {
        let written = library.write(kind, season, 5, 3, &v).message;
        let bytes = written.expect("a message");
        assert_eq!(bytes, message(kind, season, 5, 3, &v), "written");
        library.read(&bytes);
        let received = library.receive(&mut book, house, &bytes).answer;
        assert_eq!(received, 0, "kind {kind} from {house}");
        library.sent(&book, kind, 5, 3);
        library.waiting(&book);
    }
    library.come_back(&book);
    for asker in 0..n {
        for time in 0..=asker {
            let asked = library.receive(&mut book, asker, &request_of(season));
            assert_eq!(asked.answer, if time < d { 0 } else { 14 }, "asker {asker}");
        }
    }
}

/// Numbers around every power of two, and all that a byte holds and some more.
fn numbers() -> Vec<u32> {
    let powers = (0..32).map(|k| 1u32 << k);
    let around = powers.flat_map(|p| [p - 1, p, p + 1, u32::MAX - p, u32::MAX - p + 1]);
    let mut all: Vec<u32> = (0..=300).chain(around).chain([u32::MAX]).collect();
    all.sort_unstable();
    all.dedup();
    all
}

/// "House number, sender or entry number not in the book", up to the largest; and n, S and own number.
pub fn strangers(library: &mut impl Library) {
    let v = honey(77, 40, 800);
    let book = fresh([4, 2, 1, 1, 3], SEASON, &open_sheet());
    for number in numbers() {
        for kind in 1..=3 {
            let sender = if number < 4 { number as u8 } else { 3 };
            let bytes = message(kind, SEASON, sender, 1, &v);
            let answer = library.receive(&mut book.clone(), number, &bytes).answer;
            assert_eq!(answer, if number < 4 { 0 } else { 4 }, "house {number}");
        }
        let asked = library.receive(&mut book.clone(), number, &request_of(SEASON));
        assert_eq!(
            asked.answer,
            if number < 4 { 0 } else { 4 },
            "asker {number}"
        );
        let answer = library.publish(&mut book.clone(), number, &v).answer;
        assert_eq!(answer, if number < 2 { 0 } else { 4 }, "number {number}");
        for (sender, at) in [(number, 0), (0, number), (number, number)] {
            let answer = library.sent(&book, 2, sender, at).answer;
            let there = sender < 4 && at < 2;
            assert_eq!(answer, if there { 0 } else { 4 }, "{sender} and {at}");
        }
        for place in 0..5 {
            let mut numbers = [4, 2, 0, 1, 3];
            numbers[place] = number;
            let [n, s, own, f, d] = numbers;
            library.length(n, s);
            library.open(&mut book.clone(), n, s, own, f, d, number, &open_sheet());
        }
    }
    for byte in 0..=255 {
        for (sender, number) in [(byte, 1), (1, byte), (byte, byte)] {
            let bytes = message(2, SEASON, sender, number, &v);
            let answer = library.receive(&mut book.clone(), 0, &bytes).answer;
            let there = sender < 4 && number < 2;
            assert_eq!(answer, if there { 0 } else { 4 }, "{sender} and {number}");
        }
    }
}

/// Messages and requests of every length 0 to 64 and some longer, cut or lengthened with zeros, noise and a
/// second one, by reader and receiver; and every other byte in every place of a message, of every kind.
pub fn messages(library: &mut impl Library, seed: u64) {
    let mut random = Random::new(seed);
    let book = fresh([4, 2, 1, 1, 3], SEASON, &open_sheet());
    let lengths = (0..=64).chain([72, 100, 255, 256, 292, 1_000, 65_000]);
    for (kind, length) in (1..=3).flat_map(|kind| lengths.clone().map(move |l| (kind, l))) {
        let whole = message(kind, SEASON, 2, 1, &honey(77, 40, 800));
        let noise = random.bytes(length);
        for more in [&vec![0; length], &noise, &whole.repeat(length / 36 + 1)] {
            let mut bytes = whole.to_vec();
            bytes.extend(more);
            bytes.truncate(length);
            let expected = if length == 36 { 0 } else { 2 };
            assert_eq!(library.read(&bytes).answer, expected, "{length} bytes");
            let received = library.receive(&mut book.clone(), 2, &bytes);
            assert_eq!(received.answer, expected, "{length} bytes");
        }
        library.read(&noise);
        library.receive(&mut book.clone(), 2, &noise);
    }
    for length in lengths {
        let whole = request_of(SEASON);
        let noise = random.bytes(length);
        for more in [&vec![0; length], &noise, &whole.repeat(length / 11 + 1)] {
            let bytes = &[&whole[..], more].concat()[..length];
            let expected = if length == 11 { 0 } else { 2 };
            assert_eq!(library.read(bytes).answer, expected, "{length} bytes");
            let received = library.receive(&mut book.clone(), 2, bytes);
            assert_eq!(received.answer, expected, "{length} bytes");
        }
    }
    for (place, change) in (0..36).flat_map(|place| (1..=255).map(move |change| (place, change))) {
        let mut bytes = message(random.pick(&[1, 2, 3]), SEASON, 2, 1, &honey(77, 40, 800));
        bytes[place] ^= change;
        library.receive(&mut book.clone(), 2, &bytes);
    }
}

/// The calls that take a book, on these bytes.
fn on_book(library: &mut impl Library, random: &mut Random, book: &[u8]) {
    let v = honey(77, 40, 800);
    let kind = random.pick(&[1, 2, 3]);
    let season = book.get(3..7).map_or(SEASON, |season| {
        u32::from_be_bytes(season.try_into().expect("four bytes"))
    });
    library.publish(&mut book.to_vec(), 0, &v);
    let bytes = message(kind, season, 0, 0, &v);
    for bytes in [&bytes[..], &request_of(season)] {
        library.receive(&mut book.to_vec(), 0, bytes);
        library.receive_entry(&mut book.to_vec(), 0, bytes);
    }
    library.come_back(book);
    library.sent(book, kind, 0, 0);
    library.waiting(book);
}

/// A small legal book of so many houses, half full, each asker helped as often as it may be or once less.
fn half_full([n, f, d]: [u8; 3]) -> Vec<u8> {
    let gates = [Gate::AtMost(20.0), Gate::Between(-0.0, 2.0)];
    let mut book = fresh([n, 1, 0, f, d], SEASON, &sheet(20, gates[0], gates[1]));
    for (house, helped) in book[31..slots_from(n)].iter_mut().enumerate() {
        *helped = d - (house % 2) as u8;
    }
    for slot in book[slots_from(n)..].chunks_exact_mut(21).step_by(2) {
        slot[0] = 1;
        slot[1..].copy_from_slice(&honey(77, 40, 799));
    }
    book
}

/// Small books with every bit flipped and with every byte at 0, 2 and 255: one house's whole book, and
/// five houses' up to the first slots. One house's book cut to every length; and lengthened, with zeros
/// and noise.
pub fn damaged_books(library: &mut impl Library, seed: u64) {
    let mut random = Random::new(seed);
    for (numbers, most) in [([1, 0, 3], 200), ([5, 2, 4], 80)] {
        let book = half_full(numbers);
        for place in 0..book.len().min(most) {
            let bits = (0..8).map(|bit| book[place] ^ 1 << bit);
            for byte in bits.chain([0, 2, 255]) {
                let mut other = book.clone();
                other[place] = byte;
                on_book(library, &mut random, &other);
            }
            on_book(library, &mut random, &book[..place]);
        }
    }
    let book = half_full([1, 0, 3]);
    for more in (1..=64).chain([1_000, 65_000]) {
        for tail in [vec![0; more], random.bytes(more)] {
            on_book(library, &mut random, &[&book[..], &tail].concat());
        }
    }
}

/// NaNs of both signs, quiet and signalling, with every bit of the payload: as readings, judged,
/// published, received, read and written; and as limits. The infinities are among them.
pub fn nans(library: &mut impl Library, seed: u64) {
    let mut random = Random::new(seed);
    let payloads = (0..23).map(|bit| 1u32 << bit);
    let more = [0, 0x003F_FFFF, 0x007F_FFFF, random.word() >> 9 | 1];
    let usual = [17.5f32.to_bits(), 0.5f32.to_bits()];
    for payload in payloads.chain(more) {
        for bits in [0x7F80_0000 | payload, 0xFF80_0000 | payload] {
            for readings in [[bits, usual[1]], [usual[0], bits], [bits, bits]] {
                as_readings(library, &declaration(77, 40, 800, readings));
            }
            let limit = f32::from_bits(bits);
            for gate in [Gate::AtMost(limit), Gate::Between(limit, limit)] {
                as_limit(library, gate);
            }
            as_limit(library, Gate::Between(limit, 1.0));
            as_limit(library, Gate::Between(1.0, limit));
        }
    }
}

/// A declaration that no gate lets through, and that is read and written unchanged.
fn as_readings(library: &mut impl Library, v: &[u8; 20]) {
    let wide = Gate::Between(-0.0, f32::MAX);
    for gate in [OPEN, Gate::AtMost(f32::MAX), wide] {
        let sheet = sheet(20, gate, gate);
        assert_eq!(library.judge(&sheet, v), 5, "{v:02X?}");
        let mut book = fresh_book(4, 1, 0, SEASON, &sheet);
        assert_eq!(library.publish(&mut book, 0, v).answer, 5, "{v:02X?}");
        for kind in 1..=3 {
            let bytes = message(kind, SEASON, 2, 0, v);
            assert_eq!(library.receive(&mut book, 2, &bytes).answer, 5, "{v:02X?}");
            let read = library.read(&bytes).message().expect("a message");
            assert_eq!(read.declaration, *v, "read unchanged");
            let written = library.write(kind, SEASON, 2, 0, v);
            assert_eq!(written.message, Some(bytes), "written unchanged");
        }
    }
}

/// A gate that makes no legal sheet, in both places, and no legal book.
fn as_limit(library: &mut impl Library, gate: Gate) {
    let v = honey(77, 40, 800);
    for sheet in [sheet(20, gate, OPEN), sheet(20, OPEN, gate)] {
        assert_eq!(library.judge(&sheet, &v), 10, "{gate:?}");
        let mut book = fresh_book(1, 1, 0, SEASON, &sheet);
        assert_eq!(library.publish(&mut book, 0, &v).answer, 1, "{gate:?}");
        assert_eq!(library.waiting(&book).answer, 1, "{gate:?}");
        let answer = library.open(&mut book, 1, 1, 0, 0, 0, SEASON, &sheet);
        assert_eq!(answer, 10, "{gate:?}");
    }
}
