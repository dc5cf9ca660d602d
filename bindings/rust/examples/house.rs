//! Four houses in one process: they open, publish, receive and store; one loses power twice, returns and is helped; another lies about
//! what it declares, to different houses and then to one, which keeps the evidence; and they write an account of it.
//!
//! Each call works on a copy of the book. The copy is stored, with a delivery beside it, and only then does anything leave. What
//! a house sent can be read off its book, so that no message is stored: after a power cut the book says what is to be sent again.
//! A house tests its book once, when it takes it from its file, and then receives by entry; one that it opened is legal.
//! The carrier, here the row `carried`, loses what comes to a house that is down; a house with neighbours puts its network there.
//! The one argument is the folder for the books.

use std::error::Error;
use std::fs::{self, File};
use std::io::Write;
use std::path::{Path, PathBuf};

use grassmunch::{
    Book, Declaration, Entry, Gate, Heard, Kind, Message, Opening, Outcome, Refusal, Sheet, Worked,
};

type Fallible<T> = Result<T, Box<dyn Error>>;

/// Among four houses one may be wrong where f is 0, and none where f is 1. All four are to be up at the end, so f is 0; and each
/// may return twice, so d is 2.
const OPENING: Opening = Opening {
    n: 4,
    s: 2,
    f: 0,
    d: 2,
    season: 2026,
    sheet: Sheet {
        cap: 20,
        moisture: Gate::AtMost(20.0),
        conductivity: Gate::Open,
    },
};
const PUBLISHER: usize = 2;
const NUMBER: u32 = 1;
const LOSES_POWER: usize = 1;
const LIAR: usize = 3;

/// A message or a request on its way.
struct Copy {
    from: usize,
    to: usize,
    bytes: Vec<u8>,
}

/// A house's own disk: one file, with the book, and beside it a delivery behind a 1, or zeros.
struct Disk {
    folder: PathBuf,
    own: usize,
}

impl Disk {
    fn file(&self, end: &str) -> PathBuf {
        self.folder.join(format!("house-{}.{end}", self.own))
    }

    /// Whole or not at all: a new file, synced, then renamed over the old one.
    fn store(&self, book: &Book, delivery: Option<&Declaration>) -> Fallible<()> {
        let mut bytes = book.as_bytes().to_vec();
        bytes.push(delivery.is_some().into());
        bytes.extend(delivery.map_or([0; Declaration::BYTES], |delivery| *delivery.as_bytes()));
        let mut file = File::create(self.file("new"))?;
        file.write_all(&bytes)?;
        file.sync_all()?;
        fs::rename(self.file("new"), self.file("book"))?;
        File::open(&self.folder)?.sync_all()?;
        Ok(())
    }

    /// What was stored last, if it is there to the byte and a legal book. `from_bytes` tests the whole book, once; from then on the house
    /// receives by entry.
    fn recover(&self) -> Fallible<(Book, Option<Declaration>)> {
        let mut bytes = fs::read(self.file("book"))?;
        let length = Book::length(OPENING.n, OPENING.s)?;
        if bytes.len() != length + 1 + Declaration::BYTES {
            return Err("the file has another length".into());
        }
        let beside = bytes.split_off(length);
        let delivery = Declaration::from_bytes(beside[1..].try_into()?);
        Ok((
            Book::from_bytes(bytes)?,
            (beside[0] == 1).then_some(delivery),
        ))
    }
}

struct House {
    /// None while the house is down: memory is gone, and the file stays.
    book: Option<Book>,
    disk: Disk,
    /// Its register. A delivery comes once, but after a power cut it may be here already.
    register: Vec<Declaration>,
}

impl House {
    fn open(folder: &Path, own: usize) -> Fallible<House> {
        let book = Book::open(&OPENING, own as u32)?;
        let folder = folder.to_owned();
        let disk = Disk { folder, own };
        disk.store(&book, None)?;
        println!("house {own} opens its book: accepted");
        Ok(House {
            book: Some(book),
            disk,
            register: Vec::new(),
        })
    }

    fn enter(&mut self, delivery: Option<Declaration>) {
        self.register
            .extend(delivery.filter(|lot| !self.register.contains(lot)));
    }
}

/// The houses and what is carried between them.
struct Valley {
    houses: Vec<House>,
    carried: Vec<Copy>,
    taken: usize,
    lost: usize,
    cuts: usize,
    /// From here on the liar lies, and what comes to it nobody hears.
    lies: bool,
}

fn kind_of(bytes: &[u8]) -> &'static str {
    match Message::read(bytes) {
        Ok(Heard::Message(message)) => match message.kind {
            Kind::Send => "SEND",
            Kind::Echo => "ECHO",
            Kind::Ready => "READY",
            _ => "a kind of a later version",
        },
        Ok(Heard::Request { .. }) => "a request",
        _ => "no message",
    }
}

fn told(of: &Declaration) -> String {
    let (lot, colonies, kilograms) = (of.lot(), of.colonies(), of.kilograms());
    let (moisture, conductivity) = (of.moisture(), of.conductivity());
    format!(
        "lot {lot}: {colonies} colonies, {kilograms} kg, {moisture} percent, {conductivity} mS/cm"
    )
}

fn tell(gave: &Outcome) {
    print!("accepted");
    if let Some(message) = &gave.message {
        print!(", gives {}", kind_of(message));
    }
    if let Some(delivery) = &gave.delivery {
        print!(", delivers {}", told(delivery));
    }
    println!("{}", if gave.helps { ", helps" } else { "" });
}

/// The declaration that the book has of this kind from this house on this entry: docs/BOOK.md, "The slots of an entry".
fn standing(book: &Book, from: usize, came: &Message) -> Fallible<Declaration> {
    let (n, s) = (usize::from(book.houses()), usize::from(book.numbers()));
    let (number, sender) = (usize::from(came.number), usize::from(came.sender));
    let entry = s + (number * n + sender) * (2 * n + 3);
    let slot = match came.kind {
        Kind::Send => entry,
        Kind::Echo => entry + 1 + from,
        Kind::Ready => entry + 1 + n + from,
        _ => return Err("a kind of a later version".into()),
    };
    let at = 31 + n + 21 * slot + 1;
    let bytes = &book.as_bytes()[at..at + Declaration::BYTES];
    Ok(Declaration::from_bytes(bytes.try_into()?))
}

impl Valley {
    fn up(&self, own: usize) -> Fallible<&Book> {
        self.houses[own].book.as_ref().ok_or("house is down".into())
    }

    fn carry(&mut self, from: usize, to: usize, bytes: &[u8]) {
        let bytes = bytes.to_vec();
        self.carried.push(Copy { from, to, bytes });
    }

    /// "It goes to all n houses, its own included; that is n copies."
    fn carry_to_all(&mut self, from: usize, bytes: &[u8]) {
        for to in 0..self.houses.len() {
            self.carry(from, to, bytes);
        }
    }

    fn publish(&mut self, own: usize, number: u32, declaration: &Declaration) -> Fallible<()> {
        let lot = declaration.lot();
        print!("house {own} publishes lot {lot} at number {number}: ");
        self.call(own, own, |book| book.publish(number, declaration))?;
        Ok(())
    }

    fn receive(&mut self, own: usize, from: u64, bytes: &[u8]) -> Fallible<()> {
        print!("house {own} hears {} from house {from}: ", kind_of(bytes));
        let refusal = self.call(own, from as usize, |book| book.receive_entry(from, bytes))?;
        if refusal == Some(Refusal::Conflict) {
            self.keep_evidence(own, from as usize, bytes)?;
        }
        Ok(())
    }

    /// A conflict: what was heard first stands in the book. Here the account keeps both; a house keeps both messages as they came, with
    /// the signatures of its carrier.
    fn keep_evidence(&self, own: usize, from: usize, bytes: &[u8]) -> Fallible<()> {
        let Heard::Message(came) = Message::read(bytes)? else {
            return Err("a request is no conflict".into());
        };
        let (kind, number, sender) = (kind_of(bytes), came.number, came.sender);
        let first = told(&standing(self.up(own)?, from, &came)?);
        let then = told(&came.declaration);
        print!("house {own} keeps as evidence against house {from}, ");
        println!("{kind} on number {number} of sender {sender}: first {first}; then {then}");
        Ok(())
    }

    /// A call on a copy of the book. The copy is stored, with a delivery beside it; then it takes the book's place, and what the call
    /// gave leaves. A refusal is told, and handed back; answer 1 stops the house: memory was overwritten, and at its next start it reads
    /// its file, and tests it.
    fn call(
        &mut self,
        own: usize,
        from: usize,
        call: impl FnOnce(&mut Book) -> Result<Worked<'_>, Refusal>,
    ) -> Fallible<Option<Refusal>> {
        let House { book, disk, .. } = &mut self.houses[own];
        let worked = match call(book.as_mut().ok_or("house is down")?) {
            Ok(worked) => worked,
            Err(refusal) => {
                println!("{} (answer {})", refusal.sentence(), refusal.number());
                return match refusal {
                    Refusal::NoLegalBook => Err(refusal.into()),
                    _ => Ok(Some(refusal)),
                };
            }
        };
        let gave = worked.store(|book, delivery| disk.store(book, delivery))?;
        tell(&gave);
        if self.loses_power(own, &gave) {
            if gave.delivery.is_some() {
                self.start(own)?;
            }
            return Ok(None);
        }
        if let Some(message) = gave.message {
            self.carry_to_all(own, &message);
        }
        self.houses[own].enter(gave.delivery);
        if gave.helps {
            self.help(own, from)?;
        }
        Ok(None)
    }

    /// One house loses power twice: after a READY was stored and before it leaves; and after a delivery was stored and before the
    /// register has it.
    fn loses_power(&mut self, own: usize, gave: &Outcome) -> bool {
        let is_ready = gave
            .message
            .is_some_and(|message| kind_of(&message) == "READY");
        let before = match self.cuts {
            0 if is_ready => "its READY leaves",
            1 if gave.delivery.is_some() => "its register has the delivery",
            _ => return false,
        };
        if own != LOSES_POWER {
            return false;
        }
        self.cuts += 1;
        self.houses[own].book = None;
        println!("house {own} loses power before {before}");
        true
    }

    /// Takes the book and a delivery from the file.
    fn recover(&mut self, own: usize) -> Fallible<Book> {
        let (book, delivery) = self.houses[own].disk.recover()?;
        self.houses[own].enter(delivery);
        self.houses[own].book = Some(book.clone());
        Ok(book)
    }

    /// Sends again to all what it has sent: the last message may not have left.
    fn send_again(&mut self, own: usize, book: &Book) {
        for message in book.all_sent() {
            println!("house {own} sends again to all: {}", kind_of(&message));
            self.carry_to_all(own, &message);
        }
    }

    /// Power is back, and nothing that was sent to the house was lost: it asks for no help.
    fn start(&mut self, own: usize) -> Fallible<()> {
        let book = self.recover(own)?;
        println!("house {own} starts at once with the book and the delivery of its file");
        self.send_again(own, &book);
        Ok(())
    }

    /// "On return a house sends again to all what it has sent and asks all for help."
    fn come_back(&mut self, own: usize) -> Fallible<()> {
        let book = self.recover(own)?;
        let Some(Entry { number, sender }) = book.waiting()? else {
            return Err("nothing waits".into());
        };
        print!("house {own} returns with the book of its file: accepted; ");
        println!("waiting: number {number} of sender {sender}");
        self.send_again(own, &book);
        println!("house {own} asks all for help");
        self.carry_to_all(own, &book.come_back()?);
        Ok(())
    }

    /// "A helper sends again its own messages, to the asker alone."
    fn help(&mut self, own: usize, asker: usize) -> Fallible<()> {
        let again: Vec<_> = self.up(own)?.all_sent().collect();
        for message in again {
            let kind = kind_of(&message);
            println!("house {own} sends again to house {asker} alone: {kind}");
            self.carry(own, asker, &message);
        }
        Ok(())
    }

    /// Brings each copy once. "What arrives meanwhile is lost." What comes to the liar once it lies, nobody hears.
    fn bring_all(&mut self) -> Fallible<()> {
        while let Some(copy) = self.carried.get(self.taken) {
            let (from, to, bytes) = (copy.from, copy.to, copy.bytes.clone());
            self.taken += 1;
            if self.lies && to == LIAR {
                continue;
            }
            if self.houses[to].book.is_some() {
                self.receive(to, from as u64, &bytes)?;
            } else {
                let kind = kind_of(&bytes);
                println!("house {to} is down: {kind} from house {from} is lost");
                self.lost += 1;
            }
        }
        let is_request = |copy: &&Copy| copy.bytes.len() == Message::REQUEST_BYTES;
        let requests = self.carried.iter().filter(is_request).count();
        let copies = self.carried.len() - requests;
        let lost = self.lost;
        let deliveries: usize = self.houses.iter().map(|house| house.register.len()).sum();
        println!(
            "{copies} copies and {requests} requests were carried, {lost} of them lost; {deliveries} deliveries"
        );
        Ok(())
    }

    /// A lot that is not plausible: nothing is published, and the number may be used.
    fn is_not_published(&mut self, declaration: &Declaration) -> Fallible<()> {
        self.publish(PUBLISHER, 0, declaration)?;
        let (number, sender) = (0, PUBLISHER as u8);
        let entry = Entry { number, sender };
        if self.up(PUBLISHER)?.sent(Kind::Send, entry)?.is_some() {
            return Err("a lot that is not plausible was published".into());
        }
        Ok(())
    }

    /// No bees, no honey: with no colonies a lot is not plausible, whatever its weight.
    fn ask_for_the_colonies(&mut self) -> Fallible<()> {
        println!("a beekeeper declares lot 78 with no colonies and no kilograms");
        self.is_not_published(&Declaration::new(78, 0, 0, 17.5, 0.5))?;
        println!(
            "house {PUBLISHER} asks the beekeeper for the colonies; its number 0 is still free"
        );
        Ok(())
    }

    /// A reading below zero is not plausible, even at an open gate; here the gate is at most 20.0, and would let it in.
    fn ask_for_the_reading(&mut self) -> Fallible<()> {
        println!("a refractometer sends minus 3 as the moisture of lot 79");
        self.is_not_published(&Declaration::new(79, 40, 800, -3.0, 0.5))?;
        println!(
            "house {PUBLISHER} asks the laboratory to look at the refractometer and to read again; its number 0 is still free"
        );
        Ok(())
    }

    /// The liar's SEND, ECHO and READY of lot 90, with that many kilograms, to one house.
    fn say(&mut self, to: usize, kilograms: u32) {
        for &kind in Kind::ALL {
            let message = Message {
                kind,
                season: OPENING.season,
                sender: LIAR as u8,
                number: NUMBER as u8,
                declaration: Declaration::new(90, 30, kilograms, 17.5, 0.5),
            };
            self.carry(LIAR, to, &message.to_bytes());
        }
    }

    /// A wrong house says of lot 90 one thing to houses 0 and 1 and another to house 2, and vouches for both. One of four may be wrong:
    /// the honest ones deliver one of the two, or none, and the same.
    fn lie(&mut self) -> Fallible<()> {
        self.lies = true;
        println!("house {LIAR} lies: to houses 0 and 1 lot 90 has 600 kg, to house 2 it has 500");
        for to in 0..LIAR {
            self.say(to, if to < 2 { 600 } else { 500 });
        }
        self.bring_all()?;
        let first = &self.houses[0].register;
        let mut honest = self.houses[..LIAR].iter();
        if first.len() != 2 || !honest.all(|house| house.register == *first) {
            return Err("the honest houses delivered different declarations".into());
        }
        println!("houses 0, 1 and 2 delivered one declaration of lot 90, the same");
        Ok(())
    }

    /// A nervous carrier brings what the house has: a repeat. A liar brings something else: a conflict. Neither changes a book.
    fn repeat_and_conflict(&mut self) -> Fallible<()> {
        println!("a nervous carrier brings house 0 again what house {LIAR} told it");
        self.say(0, 600);
        self.bring_all()?;
        println!("house {LIAR} tells house 0 what it told house 2");
        self.say(0, 500);
        self.bring_all()
    }
}

fn main() -> Fallible<()> {
    let folder = PathBuf::from(std::env::args().nth(1).unwrap_or(".".into()));
    let Opening {
        n, s, f, d, season, ..
    } = OPENING;
    let length = Book::length(n, s)?;
    println!(
        "{n} houses with {s} numbers each, season {season}, f = {f}, d = {d}: a book is {length} bytes"
    );
    let houses = (0..n as usize)
        .map(|own| House::open(&folder, own))
        .collect::<Fallible<_>>()?;
    let mut valley = Valley {
        houses,
        carried: Vec::new(),
        taken: 0,
        lost: 0,
        cuts: 0,
        lies: false,
    };

    let lot77 = Declaration::new(77, 40, 800, 17.5, 0.5);
    valley.publish(PUBLISHER, NUMBER, &lot77)?;
    valley.bring_all()?;
    valley.come_back(LOSES_POWER)?;
    valley.bring_all()?;

    // a carrier that repeats a request spends the asker's help
    let request = valley.up(LOSES_POWER)?.come_back()?;
    println!("the carrier brings house 0 the request of house {LOSES_POWER} twice more");
    valley.receive(0, LOSES_POWER as u64, &request)?;
    valley.receive(0, LOSES_POWER as u64, &request)?;
    valley.bring_all()?;

    // four things that a house refuses; each leaves its book as it was
    let send = valley.carried[0].bytes.clone();
    let publisher = PUBLISHER as u64;
    valley.receive(0, publisher, &send)?;
    valley.receive(0, (1 << 32) + publisher, &send)?; // cut to 32 bits it would be the publisher
    valley.publish(PUBLISHER, NUMBER, &lot77)?;
    valley.publish(PUBLISHER, 0, &Declaration::new(77, 40, 801, 17.5, 0.5))?;
    valley.ask_for_the_colonies()?;
    valley.ask_for_the_reading()?;
    valley.lie()?;
    valley.repeat_and_conflict()
}
