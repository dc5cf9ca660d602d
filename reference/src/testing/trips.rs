//! Reading what was written and writing what was read; and what reading refuses.

use super::forms::random_declaration;
use super::random::Random;
use crate::Library;

/// The places of a message that are the same in all: tags and lengths.
const FIXED: [usize; 9] = [0, 1, 2, 4, 5, 6, 13, 14, 15];

/// Both round trips, for any five things; and "for another kind it answers 2".
pub fn round(library: &mut impl Library, seed: u64, rounds: usize) {
    let mut random = Random::new(seed);
    for round in 0..rounds {
        let declaration = match random.below(2) {
            0 => random_declaration(&mut random),
            _ => random.bytes(20).try_into().expect("twenty bytes"),
        };
        let (kind, season) = (1 + random.below(3) as u8, random.word());
        let (sender, number) = (random.byte(), random.byte());
        let written = library.write(kind, season, sender, number, &declaration);
        assert_eq!(written.answer, 0, "writing kind {kind}");
        let bytes = written.message.expect("a message at answer 0");
        let answer = library.read(&bytes);
        let read = answer.message().expect("what was written reads");
        assert_eq!(
            (answer.answer, read.kind as u8, read.season),
            (0, kind, season)
        );
        assert_eq!(
            (read.sender, read.number, read.declaration),
            (sender, number, declaration)
        );
        let again = library.write(
            read.kind as u8,
            read.season,
            read.sender,
            read.number,
            &read.declaration,
        );
        assert_eq!(again.message, Some(bytes), "what was read, written again");

        let kind = round as u8;
        let written = library.write(kind, season, sender, number, &declaration);
        assert_eq!(
            written.answer == 0,
            (1..=3).contains(&kind),
            "writing kind {kind}"
        );
        assert_eq!(
            written.message.is_some(),
            (1..=3).contains(&kind),
            "writing kind {kind}"
        );
    }
}

/// "Exactly these, in this order": every other byte in a fixed place, every other kind and every other
/// length is malformed.
pub fn malformed(library: &mut impl Library, seed: u64) {
    let mut random = Random::new(seed);
    let declaration = random_declaration(&mut random);
    let whole = library.write(2, random.word(), random.byte(), random.byte(), &declaration);
    let whole = whole.message.expect("a message at answer 0");
    for place in 0..whole.len() {
        for change in 1..=255 {
            let mut bytes = whole;
            bytes[place] ^= change;
            let kind = (1..=3).contains(&bytes[3]);
            let well_formed = kind && !FIXED.contains(&place);
            let read = library.read(&bytes);
            assert_eq!(
                read.answer,
                if well_formed { 0 } else { 2 },
                "byte {place} changed"
            );
            assert_eq!(read.form.is_some(), well_formed, "byte {place} changed");
        }
    }
    for length in (0..=64).filter(|&length| length != 36) {
        let mut zeros = whole.to_vec();
        zeros.resize(length, 0);
        let mut noise = whole.to_vec();
        noise.extend(random.bytes(64));
        noise.truncate(length);
        for bytes in [zeros, noise, random.bytes(length)] {
            let read = library.read(&bytes);
            assert_eq!((read.answer, read.form), (2, None), "{length} bytes");
        }
    }
}
