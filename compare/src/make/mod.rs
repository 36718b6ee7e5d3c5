//! Inputs for the judges, each from one seed: a code book, a file, a day (02 W4) and a report space.

pub mod book;
pub mod damage;
pub mod day;
pub mod fields;
pub mod justify;
pub mod record;
pub mod sender;
pub mod sound;
pub mod today;

use std::collections::HashSet;
use std::fmt::Write;

use crate::ascii::ASCII_FH;
use crate::layout::{FIELDS, RECORD};
use crate::random::{mix, Random};
use book::{move_codes, random_book, write_damaged, Book, BookDamage, BETC, LARGEST};
use damage::{Damage, Planned, Target, When};
use justify::{move_record, Moves, Page, TOTALS};
use sender::{printable, turn, Sender, CAREFUL};
use sound::{Batch, Place, Style, Writer};
use today::Today;

/// What may be left out of a recipe; a header stands for its batch, a detail for its payment.
#[derive(Clone, Copy, PartialEq, Eq, Hash)]
pub enum Piece {
    Damage(usize),
    Record(Place),
    /// What turns the file into ASCII.
    Ascii,
    /// What moves values within their fields.
    Moves,
    /// The day that is lent; the dates stay.
    Today,
}

/// All that is drawn for one input.
pub struct Recipe {
    seed: u64,
    sender: Sender,
    style: Style,
    batches: Vec<Batch>,
    damages: Vec<Planned>,
    moves: Option<Moves>,
    today: Today,
    /// Any bytes in place of the records.
    any_bytes: Option<usize>,
    large_book: Option<usize>,
    /// Bytes of report more, or fewer, than the 64 × (1 + batches) that 01 asks for.
    report_beside: isize,
}

#[derive(Default, Clone)]
pub struct Input {
    pub file: Vec<u8>,
    pub book: Vec<u8>,
    pub today: Vec<u8>,
    pub report: Vec<u8>,
    places: Vec<Place>,
}

impl Input {
    /// 02 W3: moves every field of the file and every code of the book; gives how many of each have other bytes now.
    pub fn move_all(&mut self, seed: u64) -> (u64, u64) {
        let moves = Moves::all(seed);
        (move_records(self, Some(moves), |_| true), move_book(self, moves))
    }
}

/// Inputs about the limits of 65,535 records and 16,777,216 bytes of book: last four bits of the seed, index modulo 20,000. The last two
/// are in ASCII.
const LARGE: [(u64, u64); 6] = [(1, 777), (2, 5_555), (3, 10_777), (4, 15_555), (5, 3_777), (6, 13_777)];

/// The seed of input `index`.
pub fn input_seed(seed: u64, index: u64) -> u64 {
    let large = LARGE.iter().find(|(_, place)| index % 20_000 == *place);
    mix(mix(seed) ^ index) << 4 | large.map_or(0, |(bits, _)| *bits)
}

impl Recipe {
    pub fn new(seed: u64) -> Recipe {
        let random = &Random::new(mix(seed));
        let large = seed % 16;
        let (batches, large_book) = match large {
            1 | 5 => (vec![sound::plan_many_parties(65_535, random)], None),
            3 | 6 => (vec![sound::plan_many_parties(65_536 + random.index(2), random)], None),
            2 => (sound::plan(random), Some(LARGEST)),
            4 => (sound::plan(random), Some(LARGEST + 1)),
            _ => (sound::plan(random), None),
        };
        let style = Style::new(&batches, random);
        let mut damages = match large {
            0 => damage::plan(&batches, random),
            3 | 6 => vec![damage::plan_before_limit(random)],
            _ => Vec::new(),
        };
        let bytes = random.pick(&[0, 1, 2, 849, RECORD, 851, 2 * RECORD, random.index(3_000)]);
        let any_bytes = random.chance(250).then_some(bytes);
        let report_beside = match random.below(24) {
            0 => -1,
            1 => random.pick(&[-8, -63, -64, -65, isize::MIN / 2]),
            2..=9 => 0,
            10 => 4_096,
            _ => random.index(200) as isize,
        };
        let sender = match large {
            0 => Sender::new(random),
            5 | 6 => CAREFUL,
            _ => Sender::Ebcdic,
        };
        if large == 0 {
            damages.extend(damage::plan_in_ascii(&batches, sender, random));
        }
        // Few batches of planned kinds are drawn, and their DT have many fields to move.
        let has_kinds = batches.iter().any(|batch| batch.kinds.is_some());
        let moves = Moves::new(if has_kinds { 4 } else { 2 }, random);
        let mut today = Today::new(random);
        // 02 W4: 3 is tested before 14, and few files are so long.
        if matches!(large, 3 | 6) && random.chance(2) {
            today.damage(random);
        }
        Recipe {
            seed,
            sender,
            style,
            batches,
            damages,
            moves,
            today,
            any_bytes,
            large_book,
            report_beside,
        }
    }

    pub fn seed(&self) -> u64 {
        self.seed
    }

    pub fn pieces(&self) -> Vec<Piece> {
        let mut pieces: Vec<_> = (0..self.damages.len()).map(Piece::Damage).collect();
        let mut records: Vec<_> = (0..self.batches.len()).map(Place::Header).collect();
        for (batch, plan) in self.batches.iter().enumerate() {
            records.extend((0..plan.payments.len()).map(|payment| Place::Detail(batch, payment)));
            for (payment, plan) in plan.payments.iter().enumerate() {
                records.extend((0..plan.ends().2).map(|sub| Place::Sub(batch, payment, sub)));
            }
        }
        pieces.extend(records.into_iter().map(Piece::Record));
        pieces.extend((self.sender != Sender::Ebcdic).then_some(Piece::Ascii));
        pieces.extend(self.moves.map(|_| Piece::Moves));
        pieces.extend((!self.today.lent.is_empty()).then_some(Piece::Today));
        pieces
    }

    /// Makes the input but for the dropped pieces.
    pub fn make(&self, dropped: &HashSet<Piece>, input: &mut Input) {
        let random = &Random::new(!self.seed);
        input.file.clear();
        input.places.clear();
        let mut book = random_book(random);
        if self.batches.iter().any(|batch| batch.kinds.is_some()) {
            book.add_beside(BETC, random);
        }
        if self.sender.is_printable() {
            book.make_printable();
        }
        self.make_file(&book, dropped, random, input);
        input.today.clear();
        input.today.extend_from_slice(self.lent(dropped));
        input.book.clear();
        match self.large_book {
            Some(size) => book.write_large(size, &mut input.book),
            None => write_damaged(&book, &self.book_damages(dropped), &mut input.book),
        }
        if let Some(moves) = self.moves(dropped).filter(|moves| moves.book) {
            move_book(input, moves);
        }
        let batches = input.places.iter().filter(|place| matches!(place, Place::Header(_))).count();
        let size = (64 * (1 + batches) as isize + self.report_beside).max(0);
        input.report.resize(size as usize, 0);
        random.fill(&mut input.report);
    }

    fn make_file(&self, book: &Book, dropped: &HashSet<Piece>, random: &Random, input: &mut Input) {
        let style = &self.style;
        Writer {
            style,
            book,
            dropped,
            printable: self.sender.is_printable(),
            today: &self.today,
            input,
        }
        .write(&self.batches, random);
        let (early, late) = match self.moves(dropped) {
            Some(moves) if moves.early => (Some(moves), None),
            moves => (None, moves),
        };
        move_records(input, early, |field| !TOTALS.contains(&field));
        for when in [When::BeforeTotals, When::AfterTotals, When::InAscii, When::AtTheEnd] {
            if when == When::AfterTotals {
                record::finish(&mut input.file);
                move_records(input, early, |field| TOTALS.contains(&field));
            }
            if self.sender.turns_before(when) {
                self.turn(dropped, &mut input.file);
            }
            if when == When::InAscii {
                move_records(input, late, |_| true);
            }
            let damages = self.kept(dropped).filter(|planned| planned.when == when);
            let today = &self.today;
            damages.for_each(|planned| Target { input, book, today }.apply(planned));
        }
        if let Some(length) = self.any_bytes {
            input.file.resize(length, 0);
            random.fill(&mut input.file);
            if self.sender != Sender::Ebcdic && !dropped.contains(&Piece::Ascii) {
                input.file.iter_mut().zip(ASCII_FH).for_each(|(byte, start)| *byte = start);
            }
        }
    }

    fn moves(&self, dropped: &HashSet<Piece>) -> Option<Moves> {
        self.moves.filter(|_| !dropped.contains(&Piece::Moves))
    }

    fn lent(&self, dropped: &HashSet<Piece>) -> &[u8] {
        match dropped.contains(&Piece::Today) {
            true => &[],
            false => &self.today.lent,
        }
    }

    fn turn(&self, dropped: &HashSet<Piece>, file: &mut [u8]) {
        if self.sender.is_printable() {
            file.iter_mut().for_each(|byte| *byte = printable(*byte));
        }
        if !dropped.contains(&Piece::Ascii) {
            turn(file, &Random::new(mix(!self.seed)));
        }
    }

    fn book_damages(&self, dropped: &HashSet<Piece>) -> Vec<(BookDamage, u64)> {
        let of_book = |planned: &Planned| match planned.damage {
            Damage::Book(damage) => Some((damage, planned.seed)),
            _ => None,
        };
        self.kept(dropped).filter_map(of_book).collect()
    }

    fn kept<'a>(&'a self, dropped: &'a HashSet<Piece>) -> impl Iterator<Item = &'a Planned> {
        let stays = |number: &usize| !dropped.contains(&Piece::Damage(*number));
        (0..self.damages.len()).filter(stays).map(|number| &self.damages[number])
    }

    /// The recipe in words, but for the dropped pieces; batches, payments and other records are numbered from 0.
    pub fn describe(&self, dropped: &HashSet<Piece>) -> String {
        let (bytes, book, beside) = (self.any_bytes, self.large_book, self.report_beside);
        let mut text = format!("any bytes instead: {bytes:?}, large book: {book:?}, report beside what is asked: {beside}\n");
        let sender = if dropped.contains(&Piece::Ascii) {
            Sender::Ebcdic
        } else {
            self.sender
        };
        let _ = writeln!(text, "{sender:?}, {:?}, {:?}", self.moves(dropped), self.style);
        let ([year, month, day], lent) = (day::date(self.today.day), self.lent(dropped));
        let about = if self.today.about { "made about" } else { "any, not made about" };
        let _ = writeln!(
            text,
            "dates of checks {about} {year:04}-{month:02}-{day:02}, today lent as {lent:02X?}"
        );
        let stays = |place| !dropped.contains(&Piece::Record(place));
        let batches = self.batches.iter().enumerate();
        for (batch, plan) in batches.filter(|(batch, _)| stays(Place::Header(*batch))) {
            let (letter, payments) = (plan.letter, plan.payments.iter().enumerate());
            if let Some(kinds) = plan.kinds {
                let _ = writeln!(text, "B{letter} {batch}: {kinds:?}");
            }
            for (payment, plan) in payments.filter(|(payment, _)| stays(Place::Detail(batch, *payment))) {
                let stays = |sub: &usize| stays(Place::Sub(batch, payment, *sub));
                let (parties, tas, subs) = plan.ends();
                let counts = [0..parties, parties..tas, tas..subs].map(|subs| subs.filter(stays).count());
                let _ = writeln!(
                    text,
                    "B{letter} {batch}, payment {payment}: {counts:?} DX, DT, DP, reporter: {}",
                    plan.reporter
                );
            }
        }
        for Planned { damage, when, .. } in self.kept(dropped) {
            let _ = match damage {
                Damage::Field(place, field, way, joined) => {
                    let name = FIELDS[*field as usize - 1].name;
                    writeln!(text, "{when:?}: {place:?}, field {field} {name}: {way:?}, joined: {joined}")
                }
                _ => writeln!(text, "{when:?}: {damage:?}"),
            };
        }
        text
    }
}

/// 02 W3: moves the fields that are wanted, and gives how many. Each record has its own draws, which stay when others are dropped.
fn move_records(input: &mut Input, moves: Option<Moves>, is_wanted: fn(u64) -> bool) -> u64 {
    let Some(moves) = moves else { return 0 };
    let page = Page::of(&input.file);
    let records = input.file.chunks_exact_mut(RECORD).zip(&input.places);
    let moved = records.map(|(record, place)| move_record(record, page, moves.of, is_wanted, &moves.draws(place.number())));
    moved.sum()
}

fn move_book(input: &mut Input, moves: Moves) -> u64 {
    move_codes(&mut input.book, moves.of, &moves.draws(0))
}
