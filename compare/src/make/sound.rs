//! Sound files: a plan of batches and payments, and the records written from it.

use std::collections::HashSet;

use super::book::{Book, BETC, LOCATIONS};
use super::day::{self, Day};
use super::fields::{set_code, set_sound, ALL, BATCH_RULES, FILE_RULES};
use super::justify::corrected;
use super::record::{add_noise, add_record, ebcdic, fields_of, set, set_number, set_text, write_number, write_text, BLANK, MOST};
use super::today::Today;
use super::{Input, Piece};
use crate::ascii::CODE_PAGE_037;
use crate::layout::place;
use crate::random::{mix, Random};

pub struct Payment {
    pub seed: u64,
    /// Whether a CARS Reporter is asked for in field 29 of a check, or in field 14.
    pub reporter: bool,
    pub parties: usize,
    pub tas: usize,
    pub procurements: usize,
}

impl Payment {
    /// The numbers after the last DX, DT and DP among the payment's other records.
    pub fn ends(&self) -> (usize, usize, usize) {
        let tas = self.parties + self.tas;
        (self.parties, tas, tas + self.procurements)
    }
}

pub struct Batch {
    pub seed: u64,
    pub letter: char,
    pub payments: Vec<Payment>,
    /// Those of its DT, where they are planned.
    pub kinds: Option<Kinds>,
}

/// 02 W1: how the DT of a batch take their kinds of TAS/BETC, by their numbers in the batch.
#[derive(Clone, Copy, Debug)]
pub struct Kinds {
    /// So many are taken in turn.
    in_turn: usize,
    /// Ascending, descending or shuffled.
    step: usize,
    /// The only DT of one more kind.
    alone: Option<usize>,
}

impl Kinds {
    fn of(&self, tas: usize) -> usize {
        match self.alone == Some(tas) {
            true => self.in_turn,
            false => tas * self.step % self.in_turn,
        }
    }
}

/// A record by its place in the plan, which stays when others are dropped.
#[derive(Clone, Copy, PartialEq, Eq, Hash, Debug)]
pub enum Place {
    FileHeader,
    Header(usize),
    Detail(usize, usize),
    /// Batch, payment, and number among the payment's DX, DT and DP.
    Sub(usize, usize, usize),
    Trailer(usize),
    FileTrailer,
}

impl Place {
    /// One of its own.
    pub fn number(self) -> u64 {
        let [kind, batch, payment, sub] = match self {
            Place::FileHeader => [1, 0, 0, 0],
            Place::Header(batch) => [2, batch, 0, 0],
            Place::Detail(batch, payment) => [3, batch, payment, 0],
            Place::Sub(batch, payment, sub) => [4, batch, payment, sub],
            Place::Trailer(batch) => [5, batch, 0, 0],
            Place::FileTrailer => [6, 0, 0, 0],
        };
        [batch, payment, sub]
            .into_iter()
            .fold(kind as u64, |number, part| number << 20 | part as u64)
    }
}

/// The kinds of one file's batches; 01 Nesting: BC stands with no other.
const TOGETHER: [&str; 4] = ["NWIA", "NWIA", "NWIA", "C"];

pub fn plan(random: &Random) -> Vec<Batch> {
    let (batches, payments, parties, others) = match random.below(400) {
        0 | 1 => return plan_many_tas(random),
        2 => (random.rarely(8, 2_000, 200), 1, 1, 0),
        3 => (1, random.rarely(8, 2_000, 200), 1, 1),
        4..=60 => (8, 8, 2, 3),
        61..=100 => (2, 2, 4, 12),
        _ => (3, 3, 2, 2),
    };
    // 004 section 1.2 allows a hundred DT and a hundred DP; the 101st is refused.
    let hundreds = random.chance(25);
    let count = || match hundreds && random.chance(8) {
        true => random.pick(&[99, 100, 101]),
        false => random.between(0, others) as usize,
    };
    let counts = |_| [random.between(1, parties) as usize, count(), count()];
    let letters = random.rarely(60, ALL, random.pick(&TOGETHER));
    let batch = |_| {
        let payments = (0..random.between(1, payments)).map(counts).collect();
        plan_batch(letters, payments, random)
    };
    (0..random.between(1, batches)).map(batch).collect()
}

/// A batch of one of the letters, its payments with these numbers of DX, DT and DP; now and then a reporter's payment goes without DT.
pub fn plan_batch(letters: &str, counts: Vec<[usize; 3]>, random: &Random) -> Batch {
    let letter = char::from(random.pick(letters.as_bytes()));
    let (all_report, careless) = (random.chance(2), random.chance(15));
    let payment = |[parties, tas, procurements]: [usize; 3]| {
        let reporter = if letter == 'C' { random.chance(2) } else { all_report };
        let needed = usize::from(reporter && !(careless && random.chance(3)));
        let (seed, tas) = (random.draw(), tas.max(needed));
        Payment {
            seed,
            reporter,
            parties,
            tas,
            procurements,
        }
    };
    let payments = counts.into_iter().map(payment).collect();
    Batch {
        seed: random.draw(),
        letter,
        payments,
        kinds: None,
    }
}

/// 02 W1: a batch with more than 1,000 DT of few kinds or with about 1,000 kinds, or two batches that have more than 1,000 together.
fn plan_many_tas(random: &Random) -> Vec<Batch> {
    let letters = random.pick(&TOGETHER);
    let batch = |kinds, tas| plan_kinds(letters, kinds, tas, random);
    let mut batches = match random.below(16) {
        0..=3 => {
            let kinds = random.pick(&[1, 1, 2, 5, random.between(6, 60), random.between(61, 997)]);
            vec![batch(kinds as usize, random.pick(&[1_000, 1_001, 1_002, 1_001 + random.index(60)]))]
        }
        4 | 5 => [700, 700].map(|kinds| batch(kinds, kinds + random.index(20))).into(),
        _ => {
            let (kinds, more) = (998 + random.index(6), random.pick(&[0, 1, 2, random.index(60)]));
            vec![batch(kinds, kinds + random.rarely(40, random.index(7_000), more))]
        }
    };
    if random.chance(4) {
        batches.insert(0, plan_batch(letters, vec![[1, 2, 0]], random));
    }
    batches
}

/// A batch with so many kinds and so many DT.
fn plan_kinds(letters: &str, kinds: usize, tas: usize, random: &Random) -> Batch {
    let each = random.pick(&[100, 100, 100, 100, 100, 100, 100, 60, 30, 1]);
    let (mut counts, rest) = (vec![[1, each, 0]; tas / each], tas % each);
    if rest > 0 {
        counts.insert(random.index(counts.len() + 1), [1, rest, 0]);
    }
    let alone = (1 < kinds && kinds < tas && random.chance(3)).then(|| random.rarely(4, 0, tas - 1));
    let in_turn = kinds - usize::from(alone.is_some());
    // The steps have no factor in common with so many kinds.
    let step = random.pick(&[1, in_turn - 1, 7_919]);
    let kinds = Some(Kinds { in_turn, step, alone });
    Batch {
        kinds,
        ..plan_batch(letters, counts, random)
    }
}

/// One payment in a file of so many records.
pub fn plan_many_parties(records: usize, random: &Random) -> Batch {
    plan_batch(random.pick(&TOGETHER), vec![[records - 6, 1, 0]], random)
}

/// What the records of one file have in common.
#[derive(Debug)]
pub struct Style {
    noisy: bool,
    /// Least and greatest amount of a payment.
    amounts: (u128, u128),
    prefix: [u8; 20],
    first: usize,
    /// Ascending, descending or shuffled schedule numbers and Payment IDs.
    step: usize,
    same_ids_in_each_batch: bool,
    /// Some payments' DT and DP miss the payment by what a narrow sum loses, or are all credits.
    off_balance: bool,
}

impl Style {
    pub fn new(batches: &[Batch], random: &Random) -> Style {
        let mut prefix = [BLANK; 20];
        match random.below(4) {
            0 => {}
            1 => random.fill_text(&mut prefix),
            _ => prefix[..14].fill(ebcdic(random.pick(b"AMZ05"))),
        }
        let payments: usize = batches.iter().map(|batch| batch.payments.len()).sum();
        let border = random.pick(&[1 << 31, 1 << 32, 1 << 63, 1 << 64, 10_u128.pow(10), 10_u128.pow(19)]);
        let each = MOST / payments as u128;
        let amounts = match random.below(40) {
            0..=14 => (1, 1_000),
            15..=27 => (1, 100_000_000),
            28..=31 => (border - 1, border + 1),
            // The file's total passes 64 bits and stays within twenty digits, or just reaches their end.
            32..=36 => (each / 2, each),
            37 => (each, each),
            38 => (each, each + 1),
            _ => (MOST - 1, MOST),
        };
        let (noisy, same_ids_in_each_batch, off_balance) = (random.chance(3), random.chance(2), random.chance(20));
        let (first, step) = (random.index(1_000_000), random.pick(&[1, 999_999, 7_919]));
        // A Payment ID's last byte stands beside the kind of a DT.
        let at_the_end = batches.iter().any(|batch| batch.kinds.is_some()) && random.chance(2);
        let first = if at_the_end { first / 15 * 15 + 14 } else { first };
        Style {
            noisy,
            amounts,
            prefix,
            first,
            step,
            same_ids_in_each_batch,
            off_balance,
        }
    }

    /// A schedule number or Payment ID, different for each ordinal.
    fn label(&self, ordinal: usize, out: &mut [u8]) {
        out.copy_from_slice(&self.prefix[..out.len()]);
        let start = self.first % (out.len() - 5);
        write_number(&mut out[start..start + 6], ((self.first + ordinal * self.step) % 1_000_000) as u128);
    }

    /// What a payment's DT or DP add up to.
    fn goal(&self, payment: u128, random: &Random) -> u128 {
        payment
            + random.pick(if self.off_balance {
                &[0, 0, 0, 1, 1 << 64, MOST + 1]
            } else {
                &[0; 6]
            })
    }

    fn amount(&self, random: &Random) -> u128 {
        let (low, high) = self.amounts;
        (low + random.below_wide(high - low + 1)).min(MOST)
    }
}

/// Amounts of at most twenty digits with this sum, as far as so many can reach it.
fn shares(sum: u128, count: usize, random: &Random) -> Vec<u128> {
    let mut rest = sum;
    let share = |left: u128| {
        let (low, high) = (rest.saturating_sub((left - 1) * MOST).min(MOST), rest.min(MOST));
        let share = random.pick(&[low, high, low + random.below_wide(high - low + 1), low + (high - low) / left]);
        let share = if left == 1 { high } else { share };
        rest -= share;
        share
    };
    (1..=count as u128).rev().map(share).collect()
}

/// 01 Sums: debits less credits are the payment; a lone amount is the payment.
fn tas_amounts(payment: u128, credits: &[bool], random: &Random) -> Vec<u128> {
    let negative = credits.iter().filter(|credit| **credit).count();
    let positive = credits.len() - negative;
    if credits.len() == 1 || positive == 0 {
        return shares(payment, credits.len(), random);
    }
    let room = (positive as u128 * MOST).saturating_sub(payment).min(negative as u128 * MOST);
    let returned = random.below_wide(1 + random.rarely(3, room, room.min(payment)));
    let mut debits = shares(payment + returned, positive, random).into_iter();
    let mut returns = shares(returned, negative, random).into_iter();
    let amount = |credit: &bool| if *credit { returns.next() } else { debits.next() };
    credits.iter().filter_map(amount).collect()
}

/// A BETC and its flag; nothing is a blank one.
type Betc<'a> = Option<(&'a [u8], u8)>;

/// How the kinds of a batch's DT differ in fields 78 to 85.
#[derive(Clone, Copy)]
enum Differ {
    TwoBytes([usize; 2]),
    /// Field 84 holds each number twice, with and without zeros before it: it is text, which W3 does not pad with zeros.
    Zeros,
    AnyText,
}

/// What the kinds of a batch's DT hold: fields 78 to 85, and a BETC.
struct Accounts<'a> {
    kinds: Kinds,
    seed: u64,
    fields: [u8; 24],
    differ: Differ,
    first_byte: usize,
    /// The two bytes are of characters that ASCII has (02 W2).
    printable: bool,
    codes: Vec<Betc<'a>>,
}

impl<'a> Accounts<'a> {
    /// Now and then one kind is all blank, if it may be.
    fn new(batch: &Batch, kinds: Kinds, book: &'a Book, printable: bool) -> Accounts<'a> {
        let seed = mix(batch.seed);
        let random = &Random::new(seed);
        let reporter = batch.payments.iter().any(|payment| payment.reporter);
        let mut fields = [BLANK; 24];
        match random.chance(3) {
            true => random.fill_text(&mut fields),
            false if reporter && random.chance(2) => fields.fill(0xF0),
            // 02 W3: with room to move.
            false if reporter => (78..=85).for_each(|field| fields[place(field).start - place(78).start] = 0xF0),
            false => {}
        }
        let (one, other) = (random.index(24), 1 + random.index(23));
        let differ = match random.below(8) {
            0 => Differ::Zeros,
            1 | 2 => Differ::AnyText,
            _ => Differ::TwoBytes([one, (one + other) % 24]),
        };
        let debit = || book.code(BETC, Some(0), random);
        let mut codes = vec![if !reporter && random.chance(2) { None } else { debit() }];
        for flag in [1, 0, 1, 0, 1, 0, 1].into_iter().take(random.index(8)) {
            let last = codes[codes.len() - 1];
            let beside = last.and_then(|(code, _)| book.code_beside(BETC, code, random));
            let code = random.rarely(3, None, beside).or_else(|| book.code(BETC, Some(flag), random));
            if !codes.contains(&code) {
                codes.push(code);
            }
        }
        Accounts {
            kinds,
            seed,
            fields,
            differ,
            first_byte: random.pick(&[0, 0, 1, 160, random.index(192)]),
            printable,
            codes,
        }
    }

    /// Fields 78 to 85 and the BETC of the batch's DT with this number. Kinds that differ in the BETC alone stand together.
    fn of(&self, tas: usize) -> ([u8; 24], Betc<'a>) {
        let kind = self.kinds.of(tas);
        let (rest, mut fields) = (kind / self.codes.len(), self.fields);
        match self.differ {
            Differ::TwoBytes([one, other]) => {
                let text = |digit| match self.printable {
                    true => CODE_PAGE_037[(self.first_byte + digit) % 95],
                    false => BLANK + ((self.first_byte + digit) % 192) as u8,
                };
                fields[one] = text(rest % 32);
                fields[other] = text(rest / 32);
            }
            Differ::Zeros => {
                let (number, start) = (rest / 2, place(84).start - place(78).start);
                let text = if rest % 2 == 0 {
                    format!("{number}")
                } else {
                    format!("{number:04}")
                };
                write_text(&mut fields[start..start + 4], &text);
            }
            Differ::AnyText => Random::new(self.seed ^ mix(rest as u64)).fill_text(&mut fields),
        }
        (fields, self.codes[kind % self.codes.len()])
    }
}

/// What a payment's other records take from its batch and its detail.
struct Owner<'a> {
    batch: usize,
    payment: usize,
    letter: char,
    plan: &'a Payment,
    accounts: Option<&'a Accounts<'a>>,
    /// The first and the last day of the accounting month.
    month: [Day; 2],
    /// 02 W4: some issue dates of the batch lie just outside what is admitted.
    careless: bool,
    /// The number in the batch of the payment's first DT.
    first_tas: usize,
    id: [u8; 20],
    amount: u128,
}

impl<'a> Owner<'a> {
    /// Fields 78 to 85 and the BETC of a DT, where they are planned.
    fn account(&self, sub: usize) -> Option<([u8; 24], Betc<'a>)> {
        self.accounts.map(|accounts| accounts.of(self.first_tas + sub - self.plan.parties))
    }
}

pub struct Writer<'a> {
    pub style: &'a Style,
    pub book: &'a Book,
    pub dropped: &'a HashSet<Piece>,
    /// 02 W2: text is to be of characters that ASCII has.
    pub printable: bool,
    pub today: &'a Today,
    pub input: &'a mut Input,
}

impl<'a> Writer<'a> {
    /// Writes the records of the plan but for the dropped ones; totals are left to `finish`.
    pub fn write(&mut self, batches: &[Batch], random: &Random) {
        self.record("FH", Place::FileHeader, ' ', random);
        for (number, batch) in batches.iter().enumerate() {
            if self.stays(Place::Header(number)) {
                self.batch(number, batch);
            }
        }
        self.record("FT", Place::FileTrailer, ' ', random);
    }

    fn stays(&self, place: Place) -> bool {
        !self.dropped.contains(&Piece::Record(place))
    }

    /// Adds a record with all that hangs on no other field.
    fn record(&mut self, code: &str, place: Place, letter: char, random: &Random) -> &mut [u8] {
        self.input.places.push(place);
        let record = match self.style.noisy {
            true => add_noise(&mut self.input.file, code, random),
            false => add_record(&mut self.input.file, code),
        };
        let fields = fields_of(code);
        for rule in BATCH_RULES.iter().chain(&FILE_RULES) {
            if fields.contains(&rule.field) && (rule.letters == ALL || rule.letters.contains(letter)) {
                set_sound(record, rule.field, rule.sound, self.book, random);
            }
        }
        record
    }

    fn batch(&mut self, number: usize, batch: &Batch) {
        let random = &Random::new(batch.seed);
        let symbol = random.rarely(8, random.pick(&[1000, 9998]), random.between(1000, 9998));
        let last = 100_000_000 - batch.payments.len() as u64;
        let first_serial = random.rarely(
            5,
            random.pick(&[last, last, last + 1, 0]),
            random.below(random.pick(&[last, last, 1_000])),
        );
        let (month, careless) = (self.today.month(random), random.chance(10));
        self.header(number, batch, u128::from(symbol), u128::from(first_serial), month, random);
        let accounts = batch.kinds.map(|kinds| Accounts::new(batch, kinds, self.book, self.printable));
        let (mut serial, mut tas) = (first_serial, 0);
        for (payment, plan) in batch.payments.iter().enumerate() {
            let first_tas = tas;
            tas += plan.tas;
            if self.stays(Place::Detail(number, payment)) {
                let check = symbol * 100_000_000 + serial % 100_000_000;
                let check = (batch.letter == 'C').then_some(u128::from(check));
                let (batch, letter, id) = (number, batch.letter, self.payment_id(number, payment, check));
                self.payment(Owner {
                    batch,
                    payment,
                    letter,
                    plan,
                    accounts: accounts.as_ref(),
                    month,
                    careless,
                    first_tas,
                    id,
                    amount: 0,
                });
                serial += 1;
            }
        }
        self.record("BT", Place::Trailer(number), batch.letter, random);
    }

    fn payment_id(&self, batch: usize, payment: usize, check: Option<u128>) -> [u8; 20] {
        let mut id = [BLANK; 20];
        let start = if self.style.same_ids_in_each_batch { 0 } else { batch * 1_000 };
        match check {
            Some(symbol_and_serial) => write_number(&mut id[..12], symbol_and_serial),
            None => self.style.label(start + payment, &mut id),
        }
        id
    }

    fn header(&mut self, number: usize, batch: &Batch, symbol: u128, first_serial: u128, month: [Day; 2], random: &Random) {
        let (style, today, location) = (self.style, self.today, self.location(batch.payments[0].reporter, random));
        let header = self.record(&format!("B{}", batch.letter), Place::Header(number), batch.letter, random);
        if batch.letter == 'C' {
            set_number(header, 18, symbol);
            set_number(header, 19, first_serial);
            join_schedule_number(header);
            if today.about {
                day::write(&mut header[place(17)], today.created(random));
                day::write_month(&mut header[place(20)], month[0]);
            }
        } else {
            style.label(number, &mut header[place(6)]);
            set_code(header, 14, location);
            // 02 W4: only of checks are these asked.
            if random.chance(4) {
                day::write(&mut header[place(17)], today.day + 1);
                day::write_month(&mut header[place(20)], today.day + 100);
            }
        }
    }

    /// A reporter or not as asked, if the book has one.
    fn location(&self, reporter: bool, random: &Random) -> Option<(&'a [u8], u8)> {
        let asked = self.book.code(LOCATIONS, Some(u8::from(reporter)), random);
        asked.or_else(|| self.book.code(LOCATIONS, None, random))
    }

    fn payment(&mut self, mut owner: Owner) {
        self.detail(&mut owner);
        let (parties, tas, subs) = owner.plan.ends();
        for sub in self.kept(&owner, 0..parties) {
            self.party(&owner, sub);
        }
        self.tas(&owner, &self.kept(&owner, parties..tas));
        self.procurements(&owner, &self.kept(&owner, tas..subs));
    }

    fn kept(&self, owner: &Owner, subs: std::ops::Range<usize>) -> Vec<usize> {
        subs.filter(|&sub| self.stays(Place::Sub(owner.batch, owner.payment, sub)))
            .collect()
    }

    fn detail(&mut self, owner: &mut Owner) {
        let random = &Random::new(owner.plan.seed);
        let (check, voided, amount) = (owner.letter == 'C', random.chance(8), self.style.amount(random));
        owner.amount = match check {
            true if voided => 0,
            true => random.pick(&[0, 9_999_999_999, amount, amount, amount]).min(9_999_999_999),
            false => amount,
        };
        let location = self.location(owner.plan.reporter, random);
        let issued = match check {
            true => {
                let careless = owner.careless && random.chance(2);
                self.today.about.then(|| self.today.issued(owner.month, careless, random))
            }
            false => random.chance(4).then_some(self.today.day + 31),
        };
        let at = Place::Detail(owner.batch, owner.payment);
        let record = self.record(&format!("D{}", owner.letter), at, owner.letter, random);
        set(record, 23, &owner.id);
        set_number(record, 24, owner.amount);
        if check {
            set_text(record, 25, if voided { "1" } else { "0" });
            set_code(record, 29, location);
            set(record, 58, &owner.id[4..12]);
        }
        if let Some(issued) = issued {
            day::write(&mut record[place(59)], issued);
        }
    }

    /// A DX, DT or DP with the payment's ID, and draws of its own.
    fn sub(&mut self, code: &str, owner: &Owner, sub: usize) -> (&mut [u8], Random) {
        let random = Random::new(mix(owner.plan.seed ^ (sub as u64 + 1)));
        let record = self.record(code, Place::Sub(owner.batch, owner.payment, sub), owner.letter, &random);
        set(record, 65, &owner.id);
        (record, random)
    }

    fn party(&mut self, owner: &Owner, sub: usize) {
        let (record, random) = self.sub("DX", owner, sub);
        if owner.letter == 'A' && random.chance(2) {
            set_text(record, 66, "");
        }
    }

    fn tas(&mut self, owner: &Owner, kept: &[usize]) {
        let random = &Random::new(mix(owner.plan.seed));
        let codes = match owner.accounts {
            Some(_) => kept.iter().filter_map(|&sub| owner.account(sub)).map(|(_, code)| code).collect(),
            None => self.betc(owner, kept.len(), random),
        };
        let credits: Vec<_> = codes.iter().map(is_credit).collect();
        let amounts = tas_amounts(self.style.goal(owner.amount, random), &credits, random);
        for ((&sub, code), amount) in kept.iter().zip(codes).zip(amounts) {
            let (record, random) = self.sub("DT", owner, sub);
            if let Some((fields, _)) = owner.account(sub) {
                record[place(78).start..place(85).end].copy_from_slice(&fields);
                set_text(record, 88, random.pick(&["", "0", "1"]));
            } else if !owner.plan.reporter {
                set_text(record, random.pick(&[80, 84, 85]), "");
            }
            set_code(record, 86, code);
            set_number(record, 87, amount);
        }
    }

    /// Codes with a debit or a blank one among several, but for some off balance.
    fn betc(&self, owner: &Owner, count: usize, random: &Random) -> Vec<Betc<'a>> {
        let credits_only = (self.style.off_balance && random.chance(4)).then_some(1);
        let blank = || !owner.plan.reporter && random.chance(3);
        let code = |_| {
            if blank() {
                None
            } else {
                self.book.code(BETC, credits_only, random)
            }
        };
        let mut codes: Vec<_> = (0..count).map(code).collect();
        if count > 1 && credits_only.is_none() && codes.iter().all(is_credit) {
            codes[random.index(count)] = self.book.code(BETC, Some(0), random);
        }
        codes
    }

    fn procurements(&mut self, owner: &Owner, kept: &[usize]) {
        let random = &Random::new(mix(!owner.plan.seed));
        let amounts = shares(self.style.goal(owner.amount, random), kept.len(), random);
        for (&sub, amount) in kept.iter().zip(amounts) {
            let (record, random) = self.sub("DP", owner, sub);
            set_number(record, 96, amount);
            if kept.len() == 1 && random.chance(2) {
                set_text(record, 96, "");
            }
        }
    }
}

fn is_credit(code: &Betc) -> bool {
    code.is_some_and(|(_, flag)| flag == 1)
}

/// 01 Header: field 6 of BC is fields 18 and 19, each corrected (02 W3), and two blanks.
pub fn join_schedule_number(header: &mut [u8]) {
    let joined = [corrected(header, 18), corrected(header, 19)].concat();
    set(header, 6, &joined);
}
