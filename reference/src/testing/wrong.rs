//! Wrong houses that work together: they see every copy, plan what each honest house is to believe,
//! equivocate, vouch for it, go back on it, replay, lie about the kind, stay silent towards some, ask for
//! help again and again, tell of no colonies and of readings below zero, and send noise.

use super::forms::{
    honey, message, random_below, random_declaration, readings_of, twins, with_colonies,
    with_readings, FEW_HOUSES, MINUS_ZERO, SEASON,
};
use super::random::Random;
use super::season::{Rules, Sent};
use crate::{request, Declaration, MESSAGE};

/// Plausible declarations of a season, near to each other: one bit apart, the sign of a zero apart.
pub fn plausible(random: &mut Random) -> [Declaration; 4] {
    let any = random.word();
    let lot = random.pick(&[any, any, any, u32::MAX]);
    let [one, other] = random.pick(&twins());
    [honey(lot, 40, 800), honey(lot ^ 1, 40, 800), one, other]
}

/// One of these with no colonies; at times with no kilograms, or one.
pub fn bare(random: &mut Random, of: &[Declaration]) -> Declaration {
    let mut v = with_colonies(&random.pick(of), 0);
    if random.chance(2, 3) {
        v[8..12].copy_from_slice(&[0, 0, 0, random.below(2) as u8]);
    }
    v
}

/// One of these with a reading below zero, or both.
pub fn below(random: &mut Random, of: &[Declaration]) -> Declaration {
    let v = random.pick(of);
    random_below(random, &v)
}

/// One of these with a reading of minus zero.
pub fn minus_zero(random: &mut Random, of: &[Declaration]) -> Declaration {
    let v = random.pick(of);
    let mut readings = readings_of(&v);
    readings[random.below(2)] = MINUS_ZERO;
    with_readings(&v, readings)
}

/// Bytes for an honest house, and the number that they come under.
#[derive(Clone)]
pub struct Lie {
    /// The honest house.
    pub to: usize,
    /// A wrong house's number, or one not below n.
    pub under: u32,
    /// Any bytes.
    pub bytes: Vec<u8>,
}

/// So many requests may be added to a season in which most lies are requests.
const MOST_REQUESTS: usize = 600;

/// The wrong houses of a season.
pub struct Wrong {
    rules: Rules,
    honest: Vec<usize>,
    wrong: Vec<usize>,
    /// What they tell.
    pool: Vec<Declaration>,
    /// For each entry and house, what it is to believe.
    plan: Vec<Vec<Declaration>>,
    /// For each wrong and honest house, which kinds are never said.
    silent: Vec<Vec<[bool; 3]>>,
    /// How many lies in sixteen follow the plan.
    resolve: usize,
    /// How many lies in sixteen are requests.
    asks: usize,
    /// How many more there are, in sixteen, that go back on what was accepted.
    turns: usize,
    /// How many more there are, in sixteen, that tell of no colonies.
    bare: usize,
    /// How many more there are, in sixteen, that tell of readings below zero, or of minus zero.
    below: usize,
    /// The messages that were accepted.
    accepted: Vec<Lie>,
}

impl Wrong {
    /// Wrong houses with a plan of their own. There is an honest house. Where houses are favoured, they vouch
    /// for one thing on each entry and towards these alone: those are to deliver, and nobody else.
    pub fn new(
        random: &mut Random,
        rules: &Rules,
        pool: &[Declaration],
        favoured: &[bool],
    ) -> Self {
        let houses = usize::from(rules.n);
        let favours = favoured.contains(&true);
        let plan = (0..rules.entries()).map(|_| {
            let beliefs = [random.pick(pool), random.pick(pool)];
            let split = if favours { 0 } else { random.below(houses + 1) };
            let believes = |house| beliefs[usize::from(house < split)];
            (0..houses).map(believes).collect()
        });
        let plan = plan.collect();
        let withholds = random.pick(&[0, 0, 1, 4]);
        let silent = (0..houses * houses).map(|pair| {
            let others = favours && !favoured[pair % houses];
            let send = random.chance(if others { 2 } else { withholds }, 8);
            let vouch = others || send;
            [send, vouch, vouch]
        });
        let silent: Vec<[bool; 3]> = silent.collect();
        let resolve = random.pick(&[4, 12, 15]);
        let honest = rules.honest();
        let mut wrong: Vec<usize> = (0..houses).collect();
        wrong.retain(|house| !honest.contains(house));
        Wrong {
            honest,
            wrong,
            rules: rules.clone(),
            pool: pool.to_vec(),
            plan,
            silent: silent.chunks(houses).map(<[_]>::to_vec).collect(),
            resolve: if favours { 16 } else { resolve },
            asks: random.pick(&[0, 1, 1, 4, 14]),
            turns: random.pick(&[0, 2, 4, 8]),
            bare: random.pick(&[0, 1, 4, 8]),
            below: random.pick(&[0, 1, 4, 8]),
            accepted: vec![],
        }
    }

    /// How many lies there will be: so many for each entry of a sender, and among many houses more, for there are
    /// more pairs of a wrong and an honest one. Where most are requests they are far more than d for each helper.
    pub fn lies(&self, random: &mut Random) -> usize {
        let [n, h, d] = [
            usize::from(self.rules.n),
            self.honest.len(),
            usize::from(self.rules.d),
        ];
        let pairs = 6 * n * n.div_ceil(usize::from(FEW_HOUSES));
        let some = self.rules.senders_entries() * (1 + random.below(pairs));
        let some = some + some * (self.turns + self.bare + self.below) / 16;
        match self.asks {
            14 => some + (8 * h * n * d).min(MOST_REQUESTS),
            _ => some,
        }
    }

    /// This message of theirs was accepted.
    pub fn was_accepted(&mut self, lie: Lie) {
        if lie.bytes.len() == MESSAGE {
            self.accepted.push(lie);
        }
    }

    /// The next lie, or none where a wrong house withholds.
    pub fn lie(&self, random: &mut Random, copies: &[Sent]) -> Option<Lie> {
        let mut lie = self.any_lie(random, copies)?;
        let others = [
            (
                self.bare,
                bare as fn(&mut Random, &[Declaration]) -> Declaration,
            ),
            (self.below, below),
            (self.below / 2, minus_zero),
        ];
        for (more, other) in others {
            if random.chance(more, 16 + more) {
                if let Some(said) = lie.bytes.get_mut(16..MESSAGE) {
                    let v = said.try_into().expect("20 bytes");
                    said.copy_from_slice(&other(random, &[v]));
                }
            }
        }
        Some(lie)
    }

    /// The same with the colonies and the readings that it tells of.
    fn any_lie(&self, random: &mut Random, copies: &[Sent]) -> Option<Lie> {
        let to = random.pick(&self.honest);
        if self.wrong.is_empty() {
            return Some(self.stranger(random, to, copies));
        }
        if random.chance(self.turns, 16 + self.turns) && !self.accepted.is_empty() {
            return Some(self.turned(random));
        }
        let from = random.pick(&self.wrong);
        if random.chance(self.asks, 16) {
            return Some(self.request(random, from, to));
        }
        if random.chance(self.resolve, 16) {
            return self.planned(random, from, to);
        }
        if self.silent[from][to] != [false; 3] {
            return None;
        }
        let mut bytes = self.overheard(random, copies);
        match random.below(10) {
            0 => return Some(self.stranger(random, to, copies)),
            1 => bytes[3] = random.below(5) as u8,
            2 => bytes[3] = 1 + random.below(3) as u8,
            3 => bytes[35] ^= 1,
            4 => bytes[7 + random.below(6)] ^= 1 << random.below(8),
            5 => bytes[16..].copy_from_slice(&random_declaration(random)),
            6 => bytes[random.below(36)] ^= 1 << random.below(8),
            7 => bytes.truncate(random.below(36)),
            8 => {
                let length = random.below(65);
                bytes = random.bytes(length);
            }
            _ => (),
        }
        Some(Lie {
            to,
            under: from as u32,
            bytes,
        })
    }

    /// This wrong house, where it is a sender; or another that is, if any.
    fn wrong_sender(&self, random: &mut Random, house: usize) -> Option<usize> {
        let senders = &self.rules.senders;
        if senders.contains(&house) {
            return Some(house);
        }
        let wrong = senders.iter().filter(|sender| self.rules.wrong[**sender]);
        let wrong: Vec<usize> = wrong.copied().collect();
        (!wrong.is_empty()).then(|| random.pick(&wrong))
    }

    /// SEND, ECHO or READY of what the plan wants this house to believe.
    fn planned(&self, random: &mut Random, from: usize, to: usize) -> Option<Lie> {
        let number = random.below(usize::from(self.rules.s));
        let kind = 1 + random.below(3) as u8;
        let from = match kind {
            1 => self.wrong_sender(random, from)?,
            _ => from,
        };
        if self.silent[from][to][usize::from(kind) - 1] {
            return None;
        }
        let sender = match kind {
            1 => from,
            _ => random.pick(&self.rules.senders),
        };
        let entry = number * usize::from(self.rules.n) + sender;
        let belief = self.plan[entry][to];
        Some(Lie {
            to,
            under: from as u32,
            bytes: message(kind, SEASON, sender as u8, number as u8, &belief).to_vec(),
        })
    }

    /// To a house that accepted something the same is said again, or a different thing in its place:
    /// another that is told, one bit of it apart, or the sign of a reading. At times another wrong house
    /// says it.
    fn turned(&self, random: &mut Random) -> Lie {
        let mut lie = random.pick(&self.accepted);
        let said = &mut lie.bytes[16..];
        match random.below(8) {
            0 => (),
            1 => said[random.below(20)] ^= 1 << random.below(8),
            2 => said[12 + 4 * random.below(2)] ^= 0x80,
            _ => said.copy_from_slice(&random.pick(&self.pool)),
        }
        if random.chance(1, 8) {
            lie.under = random.pick(&self.wrong) as u32;
        }
        lie
    }

    /// A request, as often as not well-formed and of this season; at times under a number that no house has.
    fn request(&self, random: &mut Random, from: usize, to: usize) -> Lie {
        let mut bytes = request(SEASON).to_vec();
        let mut under = from as u32;
        match random.below(16) {
            0 => bytes = request(SEASON ^ 1 << random.below(32)).to_vec(),
            1 => bytes[random.below(11)] ^= 1 << random.below(8),
            2 => bytes.truncate(random.below(11)),
            3 => bytes.push(0),
            4 => bytes = message(9, SEASON, 0, 0, &random_declaration(random)).to_vec(),
            5 => under = self.strange_number(random, to),
            _ => (),
        }
        Lie { to, under, bytes }
    }

    /// A message that was sent, by anybody to anybody; or one out of the air.
    fn overheard(&self, random: &mut Random, copies: &[Sent]) -> Vec<u8> {
        match copies {
            [] => message(1, SEASON, 0, 0, &random_declaration(random)).to_vec(),
            some => some[random.below(some.len())].bytes.to_vec(),
        }
    }

    /// A true message or a request under a number that no house has.
    fn stranger(&self, random: &mut Random, to: usize, copies: &[Sent]) -> Lie {
        let under = self.strange_number(random, to);
        let bytes = match random.below(8) {
            0 => request(SEASON).to_vec(),
            _ => self.overheard(random, copies),
        };
        Lie { to, under, bytes }
    }

    /// A number that no house has.
    fn strange_number(&self, random: &mut Random, to: usize) -> u32 {
        let n = u32::from(self.rules.n);
        random.pick(&[n, n + 1, 255, 256, 256 + to as u32, u32::MAX, 1 << 31])
    }
}
