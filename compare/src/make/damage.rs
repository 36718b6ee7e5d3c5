//! Damages: to one field, one record, the file's end or the book (01 File answers, Batch reasons).

use super::book::{Book, BookDamage, BOOK_DAMAGES};
use super::day;
use super::fields::{break_field, split, Rule, Way, ALL, BATCH_RULES, FILE_RULES, LABEL_RULES};
use super::justify::{corrected, Justified, EBCDIC};
use super::record::{code_of, fields_of, set, write_text, BLANK, CODES};
use super::sender::{unprintable, Sender};
use super::sound::{join_schedule_number, Batch, Payment, Place};
use super::today::Today;
use super::Input;
use crate::ascii::{to_ebcdic, ASCII_FH};
use crate::layout::{of, place, FILLERS, RECORD};
use crate::random::Random;

#[derive(Clone, Copy, Debug)]
pub enum Change {
    Delete,
    Double,
    SwapNext,
    SwapWith(Place),
    Insert(&'static str),
    Recode(&'static str),
    /// The header and details of the batch.
    OtherKind(char),
    AnyCode,
    OtherId,
    /// 02 W3: the ID of a detail, DX, DT or DP at another place, and with a blank inside.
    MovedId,
    SplitId,
    LowByte,
    /// A byte below 40 in a filler, which is never looked at.
    LowFiller,
    /// A byte below 40 at a filler's first or last byte, or beside them.
    LowBorder,
    AnyBytes,
    /// 02 W2: a byte that is not printable in ASCII.
    Unprintable,
    UnprintableFiller,
    /// One in the Payment ID, and mostly others in its place in the payment's other records: all become equal.
    UnprintableId,
    /// An earlier ID of the batch, but for such bytes in both.
    UnprintableRepeat,
}

/// 02 W2: only the first of these begins a file in ASCII.
const STARTS: [[u8; 2]; 7] = [
    ASCII_FH,
    [0xC6, 0xC8],
    [0x66, 0x68],
    [0x48, 0x46],
    [0x46, 0xC8],
    [0xC6, 0x48],
    [0x46, 0x46],
];

#[derive(Clone, Copy, Debug)]
pub enum Damage {
    /// With `joined`, what must equal the field follows it: field 6 follows 18 and 19, Payment IDs follow 18, 58 and 23.
    Field(Place, u64, Way, bool),
    Record(Place, Change),
    Book(BookDamage),
    /// The file's first two bytes.
    Start([u8; 2]),
    Cut(usize),
    Add(usize),
}

#[derive(Clone, Copy, PartialEq, Eq, Debug)]
pub enum When {
    BeforeTotals,
    AfterTotals,
    /// Where the file is to be in ASCII, it is.
    InAscii,
    /// Then records and places no longer match.
    AtTheEnd,
}

/// A damage, when it is done and the seed of its draws.
pub struct Planned {
    pub damage: Damage,
    pub when: When,
    pub seed: u64,
}

/// Where the damages of one file go.
struct Aim<'a> {
    batches: &'a [Batch],
    /// One batch that takes all of them, to try the order of findings within it.
    batch: Option<usize>,
    /// No rule of a batch is broken, to try the order of file answers.
    file_alone: bool,
    /// Whether there is room for repeats far apart.
    long: bool,
    random: &'a Random,
}

pub fn plan(batches: &[Batch], random: &Random) -> Vec<Planned> {
    // Few batches of planned kinds are drawn, and one fault hides what is said of their kinds.
    let whole = batches.iter().any(|batch| batch.kinds.is_some()) && random.chance(2);
    let count = match whole {
        true => 0,
        false => random.pick(&[0, 0, 1, 1, 1, 1, 1, 2, 2, 2, 3, random.between(4, 7)]),
    };
    let batch = random.chance(2).then(|| random.index(batches.len()));
    let (file_alone, long) = (random.chance(12), batches.len() > 20 || batches[0].payments.len() > 20);
    let aim = Aim {
        batches,
        batch,
        file_alone,
        long,
        random,
    };
    (0..count).map(|_| aim.plan()).collect()
}

/// 02 W2: what a file in ASCII suffers beside the rest, and now and then another start for any file.
pub fn plan_in_ascii(batches: &[Batch], sender: Sender, random: &Random) -> Vec<Planned> {
    let aim = Aim {
        batches,
        batch: None,
        file_alone: false,
        long: false,
        random,
    };
    let count = match sender {
        Sender::Ebcdic => 0,
        Sender::Ascii { .. } => random.pick(&[0, 0, 0, 0, 0, 0, 0, 0, 1, 2]),
    };
    let start = random.chance(60).then(|| Damage::Start(random.pick(&STARTS)));
    let damages = (0..count).map(|_| aim.damage_in_ascii()).chain(start);
    let planned = |damage| Planned {
        damage,
        when: When::InAscii,
        seed: random.draw(),
    };
    damages.map(planned).collect()
}

/// Other faults of a file with too many records: 2 is tested before 3, and 3 before 4.
pub fn plan_before_limit(random: &Random) -> Planned {
    let damage = random.pick(&[Damage::Add(0), Damage::Add(1), Damage::Book(BookDamage::Empty)]);
    Planned {
        damage,
        when: When::AtTheEnd,
        seed: random.draw(),
    }
}

impl Aim<'_> {
    fn plan(&self) -> Planned {
        let damage = self.damage();
        let when = match damage {
            Damage::Cut(_) | Damage::Add(_) => When::AtTheEnd,
            Damage::Field(_, 9 | 99 | 100 | 103..=105, ..) => When::AfterTotals,
            _ => self.random.rarely(8, When::AfterTotals, When::BeforeTotals),
        };
        Planned {
            damage,
            when,
            seed: self.random.draw(),
        }
    }

    fn damage(&self) -> Damage {
        let random = self.random;
        match random.between(if self.file_alone { 80 } else { 0 }, 99) {
            _ if self.long && random.chance(3) => self.field(&LABEL_RULES),
            0..=4 => self.field(&LABEL_RULES),
            5..=79 => self.field(&BATCH_RULES),
            80..=84 => self.field(&FILE_RULES),
            85..=86 => {
                let field = random.between(1, 106);
                let way = random.pick(&[Way::Blank, Way::AnyText, Way::OneByte, Way::Zeros]);
                Damage::Field(self.place(field, ALL).unwrap_or(Place::FileHeader), field, way, false)
            }
            87..=95 => Damage::Record(self.any_place(), self.change()),
            96 => {
                let bytes = random.pick(&[1, 849, 851, RECORD, RECORD * (1 + random.index(12))]);
                random.pick(&[Damage::Add(bytes), Damage::Cut(bytes), Damage::Cut(bytes), Damage::Cut(usize::MAX)])
            }
            _ => Damage::Book(random.pick(&BOOK_DAMAGES)),
        }
    }

    fn change(&self) -> Change {
        use Change::*;
        let (place, code) = (self.any_place(), self.random.pick(&CODES));
        let letter = char::from(self.random.pick(ALL.as_bytes()));
        let few = [SwapWith(place), Insert(code), Recode(code), OtherKind(letter)];
        let many = [
            Delete, Double, SwapNext, AnyCode, OtherId, MovedId, SplitId, LowByte, LowFiller, LowBorder, LowBorder, AnyBytes,
        ];
        self.random.rarely(4, self.random.pick(&few), self.random.pick(&many))
    }

    fn damage_in_ascii(&self) -> Damage {
        use Change::*;
        let change = self
            .random
            .pick(&[Unprintable, UnprintableFiller, UnprintableFiller, UnprintableId, UnprintableRepeat]);
        let place = match change {
            UnprintableId | UnprintableRepeat => self.place(23, ALL).unwrap_or(Place::FileHeader),
            _ => self.any_place(),
        };
        Damage::Record(place, change)
    }

    /// A rule whose field some record of the batch drawn has.
    fn field(&self, rules: &[Rule]) -> Damage {
        loop {
            let rule = &rules[self.random.index(rules.len())];
            if let Some(place) = self.place(rule.field, rule.letters) {
                return Damage::Field(place, rule.field, self.random.pick(rule.ways), !self.random.chance(8));
            }
        }
    }

    fn any_place(&self) -> Place {
        let code = self.random.pick(&CODES);
        self.place(*fields_of(code).start(), ALL).unwrap_or(Place::FileTrailer)
    }

    /// A record that has the field, if the batch drawn is of one of the letters and has one.
    fn place(&self, field: u64, letters: &str) -> Option<Place> {
        // Later ones more often, as they may repeat.
        let late = |length| self.random.index(length).max(self.random.index(length));
        let batch = self.batch.unwrap_or(late(self.batches.len()));
        let Batch { letter, payments, .. } = &self.batches[batch];
        let start = late(payments.len());
        let subs = |payment: &Payment| match (field, payment.ends()) {
            (64..=75, (parties, ..)) => 0..parties,
            (76..=89, (parties, tas, _)) => parties..tas,
            (_, (_, tas, subs)) => tas..subs,
        };
        match field {
            1..=4 => Some(Place::FileHeader),
            102.. => Some(Place::FileTrailer),
            _ if !letters.contains(*letter) => None,
            5..=21 => Some(Place::Header(batch)),
            22..=63 => Some(Place::Detail(batch, start)),
            98..=101 => Some(Place::Trailer(batch)),
            _ => {
                let mut from_there_on = (start..payments.len()).chain(0..start);
                let payment = from_there_on.find(|&payment| !subs(&payments[payment]).is_empty())?;
                let subs = subs(&payments[payment]);
                Some(Place::Sub(batch, payment, subs.start + self.random.index(subs.len())))
            }
        }
    }
}

/// A file under damage.
pub struct Target<'a> {
    pub input: &'a mut Input,
    pub book: &'a Book,
    pub today: &'a Today,
}

impl Target<'_> {
    /// Does nothing where the record is not there.
    pub fn apply(&mut self, planned: &Planned) {
        let random = &Random::new(planned.seed);
        match planned.damage {
            Damage::Field(place, field, way, joined) => self.break_field(place, field, way, joined, random),
            Damage::Record(place, change) => self.change(place, change, random),
            Damage::Start(start) => self.input.file.iter_mut().zip(start).for_each(|(byte, start)| *byte = start),
            Damage::Cut(bytes) => self.input.file.truncate(self.input.file.len().saturating_sub(bytes)),
            Damage::Add(bytes) => self.input.file.extend((0..bytes).map(|_| random.byte(0, 255))),
            Damage::Book(_) => {}
        }
    }

    fn find(&self, place: Place) -> Option<usize> {
        self.input.places.iter().position(|other| *other == place)
    }

    fn record(&mut self, index: usize) -> &mut [u8] {
        &mut self.input.file[index * RECORD..(index + 1) * RECORD]
    }

    fn break_field(&mut self, at: Place, field: u64, way: Way, joined: bool, random: &Random) {
        let Some(index) = self.find(at) else { return };
        let earlier = match (way, at) {
            (Way::Repeat | Way::RepeatMoved, Place::Header(batch)) => self.find(Place::Header(random.index(batch.max(1)))),
            (Way::Repeat | Way::RepeatMoved, Place::Detail(batch, payment)) => {
                self.find(Place::Detail(batch, random.index(payment.max(1))))
            }
            _ => None,
        };
        if let Some(earlier) = earlier {
            let value = of(self.record(earlier), field).to_vec();
            set(self.record(index), field, &value);
        }
        let book = self.book;
        break_field(self.record(index), field, way, book, random);
        if let Way::AtLimit = way {
            self.set_at_limit(at, index, field, random);
        }
        if joined {
            self.join(at, index, field);
        }
    }

    /// 02 W4: the limits of the accounting month are those of the header as it is.
    fn set_at_limit(&mut self, at: Place, index: usize, field: u64, random: &Random) {
        let header = match at {
            Place::Detail(batch, _) => self.find(Place::Header(batch)),
            _ => Some(index),
        };
        let month = header.and_then(|header| day::read_month(&corrected(self.record(header), 20)));
        let day = self.today.at_limit(field, month.unwrap_or(day::month_of(self.today.day)), random);
        let bytes = &mut self.record(index)[place(field)];
        match field {
            20 => day::write_month(bytes, day),
            _ => day::write(bytes, day),
        }
    }

    fn join(&mut self, at: Place, index: usize, field: u64) {
        match (field, at) {
            (18 | 19, Place::Header(batch)) => {
                join_schedule_number(self.record(index));
                for number in index..self.input.places.len() {
                    if matches!(self.input.places[number], Place::Detail(of, _) if of == batch) {
                        self.join_check(self.input.places[number]);
                    }
                }
            }
            (58, _) => self.join_check(at),
            (23, _) => self.join_ids(at),
            _ => {}
        }
    }

    /// 01 Detail: field 23 of DC is the header's 18, then 58, each corrected (02 W3), then eight blanks.
    fn join_check(&mut self, detail: Place) {
        let Place::Detail(batch, _) = detail else { return };
        let (Some(header), Some(index)) = (self.find(Place::Header(batch)), self.find(detail)) else {
            return;
        };
        let id = [corrected(self.record(header), 18), corrected(self.record(index), 58)].concat();
        set(self.record(index), 23, &id);
        self.join_ids(detail);
    }

    /// The payment's other records take its detail's ID.
    fn join_ids(&mut self, detail: Place) {
        let (Place::Detail(batch, payment), Some(index)) = (detail, self.find(detail)) else {
            return;
        };
        let id = of(self.record(index), 23).to_vec();
        for number in 0..self.input.places.len() {
            if matches!(self.input.places[number], Place::Sub(of, owner, _) if (of, owner) == (batch, payment)) {
                set(self.record(number), 65, &id);
            }
        }
    }

    /// 02 W2: unprintable bytes at one place of a payment's IDs; now and then one has another byte there and is no longer equal.
    fn mark_ids(&mut self, detail: Place, at: usize, random: &Random) {
        let Place::Detail(batch, payment) = detail else { return };
        for number in 0..self.input.places.len() {
            match self.input.places[number] {
                Place::Sub(of, owner, _) if (of, owner) == (batch, payment) => {
                    let usual = unprintable(random);
                    self.record(number)[at] = random.rarely(30, random.pick(b"?o "), usual);
                }
                place if place == detail => self.record(number)[at] = unprintable(random),
                _ => {}
            }
        }
    }

    fn change(&mut self, at: Place, change: Change, random: &Random) {
        let Some(index) = self.find(at) else { return };
        let start = index * RECORD;
        match change {
            Change::Delete => {
                self.input.file.drain(start..start + RECORD);
                self.input.places.remove(index);
            }
            Change::Double | Change::Insert(_) => {
                self.input.file.extend_from_within(start..start + RECORD);
                self.input.file[start..].rotate_right(RECORD);
                self.input.places.insert(index, at);
                if let Change::Insert(code) = change {
                    write_text(&mut self.record(index)[..2], code);
                }
            }
            Change::SwapNext => self.swap(index, (index + 1) % self.input.places.len()),
            Change::SwapWith(other) => self.swap(index, self.find(other).unwrap_or(index)),
            Change::Recode(code) => write_text(&mut self.record(index)[..2], code),
            Change::OtherKind(letter) => self.other_kind(at, letter),
            Change::AnyCode => random.fill_text(&mut self.record(index)[..2]),
            Change::OtherId => self.record(index)[2 + random.index(20)] = random.byte(BLANK, 0xFF),
            Change::MovedId | Change::SplitId if !matches!(at, Place::Detail(..) | Place::Sub(..)) => {}
            Change::MovedId => {
                EBCDIC.move_value(&mut self.record(index)[place(23)], Justified::Text, random);
            }
            Change::SplitId => split(&mut self.record(index)[place(23)], Justified::Text, random),
            Change::LowByte | Change::LowFiller | Change::LowBorder => {
                low_byte(self.record(index), change, random);
                self.join_ids(at);
            }
            Change::AnyBytes => (0..random.between(1, 4)).for_each(|_| self.record(index)[random.index(RECORD)] = random.byte(0, 255)),
            Change::Unprintable | Change::UnprintableFiller => unprintable_byte(self.record(index), change, random),
            Change::UnprintableId => self.mark_ids(at, 2 + random.index(20), random),
            Change::UnprintableRepeat => {
                let Place::Detail(batch, payment) = at else { return };
                let (earlier, byte) = (Place::Detail(batch, random.index(payment.max(1))), 2 + random.index(20));
                let Some(source) = self.find(earlier) else { return };
                let id = of(self.record(source), 23).to_vec();
                set(self.record(index), 23, &id);
                self.join_ids(at);
                [earlier, at].into_iter().for_each(|detail| self.mark_ids(detail, byte, random));
            }
        }
    }

    fn other_kind(&mut self, at: Place, letter: char) {
        let (Place::Header(batch) | Place::Detail(batch, _) | Place::Sub(batch, ..) | Place::Trailer(batch)) = at else {
            return;
        };
        for number in 0..self.input.places.len() {
            match self.input.places[number] {
                Place::Header(of) if of == batch => write_text(&mut self.record(number)[..2], &format!("B{letter}")),
                Place::Detail(of, _) if of == batch => write_text(&mut self.record(number)[..2], &format!("D{letter}")),
                _ => {}
            }
        }
    }

    fn swap(&mut self, one: usize, other: usize) {
        let (low, high) = (one.min(other), one.max(other));
        if low < high {
            let (left, right) = self.input.file.split_at_mut(high * RECORD);
            left[low * RECORD..(low + 1) * RECORD].swap_with_slice(&mut right[..RECORD]);
            self.input.places.swap(low, high);
        }
    }
}

fn low_byte(record: &mut [u8], change: Change, random: &Random) {
    let (fillers, fields): (Vec<_>, Vec<_>) = fields_of(code_of(record)).partition(|field| FILLERS.contains(field));
    let (filler, field) = (place(random.pick(&fillers)), place(random.pick(&fields)));
    let at = match change {
        Change::LowFiller => filler.start + random.index(filler.len()),
        Change::LowBorder => random.pick(&[filler.start - 1, filler.start, filler.end - 1, filler.end.min(RECORD - 1)]),
        _ => field.start + random.index(field.len()),
    };
    record[at] = random.pick(&[0x00, 0x3F, 0x3F, random.byte(0, 0x3F)]);
}

fn unprintable_byte(record: &mut [u8], change: Change, random: &Random) {
    let code = [record[0], record[1]].map(to_ebcdic);
    let in_filler = matches!(change, Change::UnprintableFiller);
    let fields: Vec<_> = fields_of(code_of(&code))
        .filter(|field| FILLERS.contains(field) == in_filler)
        .collect();
    let field = place(random.pick(&fields));
    record[field.start + random.index(field.len())] = unprintable(random);
}
