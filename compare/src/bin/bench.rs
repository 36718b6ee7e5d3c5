//! The proved judge, the independent judge and a bare scan on the same large files: `bench [RECORDS...]`, default 1,000, 8,000 and 65,535.
//! Each time is the best of nine rounds, in each of which every contestant has its turn, so that all see the same machine. A file whose
//! bytes all have a character is then measured once more in ASCII (02 W2), in rounds of its own, so that neither drives the other from the
//! caches. An ordinary file is then measured once more, both ways, with every field moved (02 W3). No day is lent (02 W4) but where the
//! file's name says so.

use std::collections::BTreeSet;
use std::hint::black_box;
use std::process::exit;
use std::time::{Duration, Instant};

use compare::ascii::{to_ascii, to_ebcdic, CODE_PAGE_037};
use compare::make::book::{self, Book};
use compare::make::justify::{justified, Justified, EBCDIC};
use compare::make::record::{add_record, code_of, ebcdic, fields_of, finish, set, set_number, set_text, write_number, write_text, BLANK};
use compare::random::Random;
use compare::{judge, layout, proved};

const ROUNDS: usize = 9;
const LOCATIONS: usize = 200_000;
const SIZES: [usize; 3] = [1_000, 8_000, 65_535];
const SYMBOL: u128 = 1_234;
/// The day that checks are written and issued on, and the accounting month.
const TODAY: u128 = 20_240_229;
const MONTH: u128 = 224;
const MAIN: u128 = 1_234;
/// The most kinds of TAS/BETC in a batch (02 W1).
const KINDS: usize = 1_000;

type Id = [u8; 20];

/// The kind of a DT: its main account, and its BETC by number.
type Account = (u128, usize);

/// Locations are told apart by their last digits, as offices of one agency are.
fn location(number: usize) -> u128 {
    10_000_000 + number as u128 * 97
}

fn betc(number: usize) -> String {
    format!("BETC{number:03}")
}

/// With so many locations, and BETC by their numbers and flags.
fn sound_book(locations: usize, betcs: impl Iterator<Item = (usize, u8)>) -> Vec<u8> {
    let mut sound = Book::default();
    sound.add_text(book::INPUT_SYSTEMS, "SYSTEM", 0);
    (0..locations).for_each(|number| sound.add_text(book::LOCATIONS, &format!("{:08}", location(number)), 0));
    betcs.for_each(|(number, flag)| sound.add_text(book::BETC, &betc(number), flag));
    let lists: [(usize, &[&str]); 4] = [
        (book::PAYMENT_TYPES, &["Grant", "Salary", "Vendor"]),
        (book::STATES, &["CA", "MD", "VA"]),
        (book::COUNTRIES, &["DE", "US"]),
        (book::CURRENCIES, &["EUR", "USD"]),
    ];
    for (kind, codes) in lists {
        codes.iter().for_each(|code| sound.add_text(kind, code, 0));
    }
    let mut bytes = Vec::new();
    sound.write(&mut bytes);
    bytes
}

fn digits(number: u64) -> Id {
    let mut id = [0; 20];
    format!("{number:020}")
        .bytes()
        .zip(&mut id)
        .for_each(|(digit, byte)| *byte = ebcdic(digit));
    id
}

/// The Payment ID of a check: its symbol, its serial number and eight blanks (01 Detail).
fn check_id(serial: u64) -> Id {
    let mut id = [ebcdic(b' '); 20];
    format!("{SYMBOL}{serial:08}")
        .bytes()
        .zip(&mut id)
        .for_each(|(digit, byte)| *byte = ebcdic(digit));
    id
}

fn set_numbers<const N: usize>(record: &mut [u8], numbers: [(u64, u128); N]) {
    numbers.into_iter().for_each(|(field, number)| set_number(record, field, number));
}

fn set_texts<const N: usize>(record: &mut [u8], texts: [(u64, &str); N]) {
    texts.into_iter().for_each(|(field, text)| set_text(record, field, text));
}

/// A file that is sound once it has its trailers' numbers.
struct File {
    bytes: Vec<u8>,
    records: usize,
    letter: char,
}

impl File {
    fn new(records: usize) -> File {
        let mut bytes = Vec::with_capacity(records * layout::RECORD);
        let header = add_record(&mut bytes, "FH");
        set_texts(header, [(2, "SYSTEM"), (3, "201")]);
        File {
            bytes,
            records,
            letter: 'N',
        }
    }

    /// How many records may still come before BT and FT.
    fn room(&self) -> usize {
        self.records - self.bytes.len() / layout::RECORD - 2
    }

    fn open(&mut self, letter: char, schedule_number: u64, location: u128) {
        self.letter = letter;
        let header = add_record(&mut self.bytes, &format!("B{letter}"));
        if letter == 'C' {
            set_text(header, 6, &format!("{SYMBOL}{schedule_number:08}"));
            let serial = u128::from(schedule_number);
            set_numbers(
                header,
                [(15, SYMBOL), (16, 0), (17, TODAY), (18, SYMBOL), (19, serial), (20, MONTH)],
            );
        } else {
            set_number(header, 6, u128::from(schedule_number));
            set_numbers(header, [(7, 123), (12, 21_030_004), (13, 61_000_146), (14, location)]);
            set_texts(header, [(8, "2024-02-29"), (10, "5515")]);
        }
    }

    /// A detail and its DX.
    fn pay(&mut self, id: &Id, cents: u128) {
        let detail = add_record(&mut self.bytes, &format!("D{}", self.letter));
        set(detail, 23, id);
        set_numbers(detail, [(24, cents), (36, 90_210), (42, 800_000_001), (43, 71_000_013), (48, 22)]);
        set_texts(
            detail,
            [
                (26, "Ann Example"),
                (28, "Vendor"),
                (35, "CA"),
                (38, "US"),
                (44, "CTR"),
                (51, "Electronic"),
                (52, "USD"),
            ],
        );
        set_texts(detail, [(54, "2024-0001"), (55, "PAID-BEFORE"), (56, "2000-02-29"), (62, "CCD")]);
        self.party(id);
    }

    fn pay_by_check(&mut self, serial: u64, cents: u128, location: u128) {
        let start = self.bytes.len();
        self.pay(&check_id(serial), cents);
        let detail = &mut self.bytes[start..start + layout::RECORD];
        set_numbers(detail, [(25, 0), (29, location), (58, u128::from(serial)), (59, TODAY)]);
    }

    fn party(&mut self, id: &Id) {
        let party = add_record(&mut self.bytes, "DX");
        set(party, 65, id);
        set_text(party, 66, "Ann Example");
    }

    fn account(&mut self, id: &Id, cents: u128, (main, number): Account) {
        let account = add_record(&mut self.bytes, "DT");
        set(account, 77, id);
        set_numbers(account, [(80, 20), (84, main), (85, 0), (87, cents)]);
        set_text(account, 86, &betc(number));
    }

    fn procure(&mut self, id: &Id, cents: u128) {
        let procurement = add_record(&mut self.bytes, "DP");
        set(procurement, 91, id);
        set_number(procurement, 96, cents);
    }

    fn close(&mut self) {
        add_record(&mut self.bytes, "BT");
    }

    /// Fills the last payment with DX, so that the file has the records it was to have, and ends it.
    fn end(mut self, last: &Id) -> Vec<u8> {
        (0..self.room()).for_each(|_| self.party(last));
        self.close();
        add_record(&mut self.bytes, "FT");
        finish(&mut self.bytes);
        self.bytes
    }
}

fn ascending(count: usize) -> Vec<u64> {
    (1..=count as u64).collect()
}

fn descending(count: usize) -> Vec<u64> {
    (1..=count as u64).rev().collect()
}

fn shuffled(count: usize) -> Vec<u64> {
    let (random, mut numbers) = (Random::new(1), ascending(count));
    (1..count).for_each(|place| numbers.swap(place, random.index(place + 1)));
    numbers
}

/// A shuffle in which the second number repeats the first.
fn shuffled_after_a_repeat(count: usize) -> Vec<u64> {
    let mut numbers = shuffled(count);
    numbers[1] = numbers[0];
    numbers
}

fn equal_but_the_last(count: usize) -> Vec<u64> {
    let mut numbers = vec![1; count];
    numbers[count - 1] = 2;
    numbers
}

/// A shuffle in which the last number repeats the first.
fn shuffled_before_a_repeat(count: usize) -> Vec<u64> {
    let mut numbers = shuffled(count);
    numbers[count - 1] = numbers[0];
    numbers
}

/// A shuffle in which every second number repeats any of the new ones before it.
fn every_second_repeats(count: usize) -> Vec<u64> {
    let (random, mut numbers) = (Random::new(2), shuffled(count));
    (1..count)
        .step_by(2)
        .for_each(|place| numbers[place] = numbers[2 * random.index(place / 2 + 1)]);
    numbers
}

/// The payments of a file that is one batch of details with a DX each.
fn payments_of_one(records: usize) -> usize {
    (records - 4) / 2
}

fn batches_of_four_in(records: usize) -> usize {
    (records - 2) / 4
}

/// One BN batch of details with a DX each.
fn one_batch(records: usize, ids: &[Id]) -> Vec<u8> {
    let mut file = File::new(records);
    file.open('N', 1, location(5));
    let payments = payments_of_one(records);
    ids[..payments]
        .iter()
        .enumerate()
        .for_each(|(number, id)| file.pay(id, 12_345 + number as u128));
    file.end(&ids[payments - 1])
}

fn batches_of_four(records: usize, schedule_numbers: &[u64]) -> Vec<u8> {
    let mut file = File::new(records);
    let batches = batches_of_four_in(records);
    let id = digits(1);
    for (number, schedule_number) in schedule_numbers[..batches].iter().enumerate() {
        file.open(['N', 'W', 'I', 'A'][number % 4], *schedule_number, location(number % 1_000));
        file.pay(&id, 12_345);
        if number + 1 < batches {
            file.close();
        }
    }
    file.end(&id)
}

/// Payments with 30 DT, half of them credits, and 10 DP; 33 payments a batch.
fn many_accounts(records: usize) -> Vec<u8> {
    let mut file = File::new(records);
    let mut id = digits(0);
    for payment in 0_u64.. {
        if payment % 33 == 0 {
            if payment > 0 {
                file.close();
            }
            file.open('N', payment + 1, location(payment as usize * 7_919 % LOCATIONS));
        }
        id = digits(payment);
        file.pay(&id, 15_000);
        if file.room() < 2 * 45 {
            break;
        }
        (0..30).for_each(|number| file.account(&id, [2_000, 1_000][number % 2], (MAIN, 3 * number)));
        (0..10).for_each(|_| file.procure(&id, 1_500));
    }
    file.end(&id)
}

/// The DT of a file that is one batch of payments with a DX and 100 DT each, the last with what has room.
fn accounts_of_one(records: usize) -> usize {
    let payments = (records - 4) / 102;
    payments * 100 + ((records - 4) % 102).saturating_sub(2)
}

/// One BN batch of such payments, its DT debits of these kinds.
fn batch_of_accounts(records: usize, accounts: &[Account]) -> Vec<u8> {
    let mut file = File::new(records);
    file.open('N', 1, location(5));
    let mut id = digits(0);
    for (payment, accounts) in accounts.chunks(100).enumerate() {
        id = digits(payment as u64);
        file.pay(&id, 100 * accounts.len() as u128);
        if file.room() <= accounts.len() + 2 {
            (accounts.len()..file.room()).for_each(|_| file.party(&id));
        }
        accounts.iter().for_each(|account| file.account(&id, 100, *account));
    }
    file.end(&id)
}

fn kinds_shuffled(count: usize) -> Vec<Account> {
    let main = |number: u64| u128::from(number) % KINDS as u128;
    shuffled(count).into_iter().map(|number| (main(number), 0)).collect()
}

/// All but the last four bytes are shared.
fn kinds_that_fall(count: usize) -> Vec<Account> {
    let numbers = descending(count).into_iter();
    numbers.map(|number| (MAIN, number as usize % KINDS)).collect()
}

/// The last DT alone is of one more kind.
fn kinds_and_one_more(count: usize) -> Vec<Account> {
    let mut accounts = kinds_shuffled(count - 1);
    accounts.push((KINDS as u128, 0));
    accounts
}

fn checks(records: usize) -> Vec<u8> {
    let mut file = File::new(records);
    file.open('C', 1, 0);
    let payments = file.room() / 2;
    (0..payments).for_each(|number| file.pay_by_check(1 + number as u64, 12_345, location(number * 7_919 % LOCATIONS)));
    file.end(&check_id(payments as u64))
}

fn batches_of_hundred(records: usize) -> Vec<u8> {
    let mut file = File::new(records);
    let payments = (records - 2) / 202 * 100;
    for number in 0..payments {
        if number % 100 == 0 {
            file.open(['N', 'W', 'I', 'A'][number / 100 % 4], number as u64 + 1, location(number % 1_000));
        }
        file.pay(&digits(number as u64), 12_345);
        if number % 100 == 99 && number + 1 < payments {
            file.close();
        }
    }
    file.end(&digits(payments as u64 - 1))
}

/// The bytes that text may hold, from FF down (01 Bytes).
fn all_text() -> Vec<u8> {
    (0x40..=0xFF).rev().collect()
}

/// Those that have a character, from the largest down (02 W2).
fn characters() -> Vec<u8> {
    let mut characters = CODE_PAGE_037.to_vec();
    characters.sort_by(|one, other| other.cmp(one));
    characters
}

/// BN batches, the last of what has room. The IDs of a batch differ in their last byte only, and fall by these.
fn batches_that_fall(records: usize, last_bytes: &[u8]) -> Vec<u8> {
    let mut file = File::new(records);
    let mut id = digits(0);
    for schedule_number in 1.. {
        file.open('N', schedule_number, location(5));
        for last_byte in last_bytes {
            if file.room() < 2 {
                break;
            }
            id[19] = *last_byte;
            file.pay(&id, 12_345);
        }
        if file.room() < 4 {
            break;
        }
        file.close();
    }
    file.end(&id)
}

/// The judge's sieve of Payment IDs (crates/repeats/src/sieve.rt), for those who would choose IDs against it.
mod sieve {
    use super::Id;

    pub const MIX: u64 = 2_654_435_761;
    /// The suspects of a batch that the judge seeks by plain walks.
    pub const WALKS: usize = 16;
    pub const SLOTS: usize = 1 << 16;

    pub fn mix(hash: u64, word: u64) -> u64 {
        hash % (1 << 32) * MIX + (hash >> 32) + word
    }

    /// What is left to do when the words are in.
    pub fn stir(hash: u64) -> u64 {
        mix(mix(hash, 0), 0)
    }

    pub fn hash(id: &Id) -> u64 {
        let words = id
            .chunks(4)
            .map(|word| word.iter().rev().fold(0, |sum, &byte| sum << 8 | u64::from(byte)));
        stir(words.fold(0, mix))
    }

    /// The classes of a batch, each of which has its own pass.
    pub fn classes(records: usize) -> usize {
        records / 8_192 + 1
    }

    pub fn class(hash: u64, classes: usize) -> usize {
        (hash >> 49) as usize % classes
    }

    /// The bits that the hash marks in the sieve of its class.
    pub fn slots(hash: u64) -> [usize; 7] {
        [0, 5, 10, 15, 20, 25, 30].map(|shift| (hash >> shift) as usize % SLOTS)
    }
}

/// A value that a hash may have when the words are in.
const END: u64 = sieve::MIX * 0x9000_0000 + 0x8000_0000;

/// Such a value whose hash is of the last class, so that the passes for all other classes come first.
fn end_in_the_last(classes: usize) -> u64 {
    (END..)
        .find(|&end| sieve::class(sieve::stir(end), classes) == classes - 1)
        .expect("a class has one")
}

/// Whether the word is four of these bytes.
fn is_of(word: u64, bytes: &[bool; 256]) -> bool {
    word < 1 << 32 && (word as u32).to_le_bytes().iter().all(|&byte| bytes[usize::from(byte)])
}

/// IDs with one hash, ascending: what an attacker who knows the judge's sieve would send. A step of that hash takes a word of the ID:
/// hash % 2^32 * MIX + hash / 2^32 + word. It is undone here from one end value, with the high halves drawn at random.
fn ids_of_one_hash(count: usize, end: u64) -> Vec<Id> {
    const MIX: u64 = sieve::MIX;
    let (random, text) = (Random::new(1), std::array::from_fn(|byte| byte >= 0x40));
    let mut ids = BTreeSet::new();
    while ids.len() < count {
        let (mut hash, mut id) = (end, [0; 20]);
        let found = (0..5).rev().all(|place| {
            let high = if place < 2 { 0 } else { random.below(MIX) };
            let word = if place == 0 { hash } else { hash.wrapping_sub(high) % MIX };
            let low = hash.wrapping_sub(high).wrapping_sub(word) / MIX;
            hash = high << 32 | low;
            id[4 * place..4 * place + 4].copy_from_slice(&(word as u32).to_le_bytes());
            is_of(word, &text) && low < 1 << 32
        });
        if found {
            ids.insert(id);
        }
    }
    ids.into_iter().collect()
}

fn in_shuffled_order(ids: &[Id]) -> Vec<Id> {
    shuffled(ids.len()).iter().map(|place| ids[*place as usize - 1]).collect()
}

fn in_descending_order(mut ids: Vec<Id>) -> Vec<Id> {
    ids.sort_by(|one, other| other.cmp(one));
    ids
}

/// Four of these bytes, which fall, counted down in order of the bytes.
fn four_from_the_top(bytes: &[u8]) -> impl Iterator<Item = [u8; 4]> + '_ {
    let many = bytes.len();
    (0..many.pow(4)).map(move |number| [3, 2, 1, 0].map(|power| bytes[number / many.pow(power) % many]))
}

/// IDs of these bytes with one hash that share all the bytes they can. Two words are zeros in all, the third is counted down, and the
/// last two are solved for the end value. Of all text, one third word in six has a solution, so that 32,000 IDs share nine bytes; of
/// characters, far fewer have one, and 32,000 IDs share eight bytes.
fn ids_of_one_hash_and_start(count: usize, end: u64, zero: u8, bytes: &[u8]) -> Vec<Id> {
    let mut id = [zero; 20];
    let are_listed = std::array::from_fn(|byte| bytes.contains(&(byte as u8)));
    let is_text = |word| is_of(word, &are_listed);
    let word = |bytes: &[u8]| u64::from(u32::from_le_bytes([bytes[0], bytes[1], bytes[2], bytes[3]]));
    let start = sieve::mix(word(&id[..4]), word(&id[4..8]));
    let mut ids = Vec::with_capacity(count);
    for third in four_from_the_top(bytes) {
        id[8..12].copy_from_slice(&third);
        // The hash before the last word is `before` + the fourth word, and its low half is `end` / MIX or a little less.
        let before = sieve::mix(sieve::mix(start, word(&third)), 0);
        let lows = (0..4).map(|less| end / sieve::MIX - less);
        for hash in lows.flat_map(|low| [0, 1].map(|carry| ((before >> 32) + carry) << 32 | low)) {
            let (fourth, fifth) = (hash.wrapping_sub(before), end.wrapping_sub(sieve::mix(hash, 0)));
            if is_text(fourth) && is_text(fifth) {
                id[12..16].copy_from_slice(&(fourth as u32).to_le_bytes());
                id[16..].copy_from_slice(&(fifth as u32).to_le_bytes());
                ids.push(id);
            }
        }
        if ids.len() >= count {
            break;
        }
    }
    in_descending_order(ids)
}

/// Descending IDs that share 16 bytes at least, of which only the last are suspects of the sieve, all of its last class, and one more than
/// the judge walks for: all passes come first, then as many walks as it makes, each over the whole batch, and then the blocks. A batch of
/// few payments has too few marks for suspects; it ends in other IDs.
fn ids_with_late_suspects(count: usize, classes: usize) -> Vec<Id> {
    const CANDIDATES: usize = 1 << 24;
    let mut id = digits(0);
    let mut ids = Vec::with_capacity(count);
    let mut sieves = vec![[false; sieve::SLOTS]; classes];
    let late = count - sieve::WALKS - 1;
    for (tried, last) in four_from_the_top(&characters()).enumerate() {
        if ids.len() == count {
            break;
        }
        id[16..].copy_from_slice(&last);
        let hash = sieve::hash(&id);
        let (class, slots) = (sieve::class(hash, classes), sieve::slots(hash));
        let is_suspect = slots.iter().all(|&slot| sieves[class][slot]);
        let is_sought = ids.len() >= late && tried < CANDIDATES;
        if is_suspect == is_sought && (!is_suspect || class == classes - 1) {
            slots.iter().for_each(|&slot| sieves[class][slot] = true);
            ids.push(id);
        }
    }
    ids
}

fn bare_scan(file: &[u8]) -> u64 {
    u64::from(file.iter().fold(0xFF, |least: u8, &byte| least.min(byte)))
}

fn time(call: impl FnOnce() -> u64) -> (u64, Duration) {
    let start = Instant::now();
    let answer = black_box(call());
    (answer, start.elapsed())
}

/// The batches that a report of an accepted file rejects (01 Report).
fn rejected_in(report: &[u8]) -> usize {
    report.chunks(64).skip(1).filter(|row| row[40..48] != [0; 8]).count()
}

/// The file by the inverse table; nothing where a byte has no character.
fn in_ascii(file: &[u8]) -> Option<Vec<u8>> {
    file.iter().map(|&byte| to_ascii(byte)).collect()
}

/// 02 W3: the file with every field moved. A number, and field 7, stands between blanks in place of the zeros before it; text begins one
/// byte later where it ends in a blank.
fn moved(file: &[u8]) -> Vec<u8> {
    let mut moved = file.to_vec();
    for record in moved.chunks_exact_mut(layout::RECORD) {
        for field in fields_of(code_of(record)) {
            move_field(&mut record[layout::place(field)], justified(field));
        }
    }
    moved
}

fn move_field(bytes: &mut [u8], justified: Justified) {
    let value = EBCDIC.least(bytes, justified).to_vec();
    let blanks = bytes.len() - value.len();
    match justified {
        Justified::Never => {}
        _ if EBCDIC.is_padded(&value, justified) => EBCDIC.put(bytes, blanks.div_ceil(2), 0, &value),
        _ if bytes.ends_with(&[BLANK]) => bytes.rotate_right(1),
        _ => {}
    }
}

/// Without zeros before it, from the left.
fn short(number: u64) -> Id {
    let mut id = [BLANK; 20];
    write_text(&mut id, &number.to_string());
    id
}

/// 02 W3: the Payment ID of each record is moved right by a number of bytes of its own, as far as it has room.
fn with_ids_apart(mut file: Vec<u8>) -> Vec<u8> {
    for (number, record) in file.chunks_exact_mut(layout::RECORD).enumerate() {
        if code_of(record).starts_with('D') {
            let id = &mut record[layout::place(23)];
            let room = id.len() - EBCDIC.value(id).len();
            id.rotate_right(number % (room + 1));
        }
    }
    file
}

/// 00 in every filler, so that no two records in a row are free of low bytes.
fn with_low_fillers(mut file: Vec<u8>) -> Vec<u8> {
    for record in file.chunks_exact_mut(layout::RECORD) {
        for field in fields_of(code_of(record)).filter(|field| layout::FILLERS.contains(field)) {
            record[layout::place(field)].fill(0);
        }
    }
    file
}

/// A file, the report of each judge for it, and the best times of the bare scan, the independent judge and the proved one.
struct Contest<'a> {
    file: &'a [u8],
    reports: [Vec<u8>; 2],
    best: [Duration; 3],
}

impl Contest<'_> {
    fn new(file: &[u8]) -> Contest<'_> {
        let reports = [(); 2].map(|()| vec![0; 64 * (1 + file.len() / layout::RECORD / 4)]);
        let best = [Duration::MAX; 3];
        Contest { file, reports, best }
    }

    fn round(&mut self, name: &str, book: &[u8], today: &[u8], rejected: usize) {
        let (file, [own, theirs]) = (self.file, &mut self.reports);
        let (_, scan) = time(|| bare_scan(file));
        let (answer, independent) = time(|| judge::judge(file, book, today, theirs));
        let (proved_answer, proved) = time(|| proved::judge(file, book, today, own));
        if (answer, &*theirs) != (proved_answer, &*own) || answer != 0 {
            eprintln!("{name}: answers {proved_answer} and {answer}, or the reports differ");
            exit(1);
        }
        if rejected_in(theirs) != rejected {
            eprintln!("{name}: {} batches are rejected, and {rejected} were to be", rejected_in(theirs));
            exit(1);
        }
        let best = self.best;
        self.best = [best[0].min(scan), best[1].min(independent), best[2].min(proved)];
    }
}

/// Ends where the moved file draws another report than the file itself; the judges' reports are compared in each round.
fn compare_reports(name: &str, file: &[u8], moved: &[u8], book: &[u8]) {
    let report = |file: &[u8]| {
        let mut report = vec![0; 64 * (1 + file.len() / layout::RECORD / 4)];
        (judge::judge(file, book, &[], &mut report), report)
    };
    if report(file) != report(moved) {
        eprintln!("{name}: the report is another than before");
        exit(1);
    }
}

/// The best times for the file, and for the file in ASCII.
type Times = ([Duration; 3], Option<[Duration; 3]>);

fn measure(name: &str, file: &[u8], book: &[u8], today: &[u8], rejected: usize) -> Times {
    let mut ebcdic = Contest::new(file);
    (0..ROUNDS).for_each(|_| ebcdic.round(name, book, today, rejected));
    let Some(twin) = in_ascii(file) else {
        return (ebcdic.best, None);
    };
    let mut ascii = Contest::new(&twin);
    (0..ROUNDS).for_each(|_| ascii.round(&format!("{name}, in ASCII"), book, today, rejected));
    if ascii.reports != ebcdic.reports {
        eprintln!("{name}: the reports in ASCII and in EBCDIC differ");
        exit(1);
    }
    (ebcdic.best, Some(ascii.best))
}

/// With the proved judge's time for (a), and for the file that is moved here.
fn print(name: &str, records: usize, ([scan, independent, proved], ascii): Times, proved_a: Duration, unmoved: Option<Duration>) {
    let ms = |time: Duration| time.as_secs_f64() * 1e3;
    let ratio = |time: Duration, to: Duration| time.as_secs_f64() / to.as_secs_f64();
    let in_ascii = ascii.map_or("- | - | -".to_string(), |[_, independent, proved_in_ascii]| {
        let (rust, own, to_ebcdic) = (ms(independent), ms(proved_in_ascii), ratio(proved_in_ascii, proved));
        format!("{rust:.2} | {own:.2} | {to_ebcdic:.2}")
    });
    let to_unmoved = unmoved.map_or("-".to_string(), |unmoved| format!("{:.2}", ratio(proved, unmoved)));
    println!(
        "| {name} | {records} | {:.2} | {:.2} | {:.2} | {:.2} | {:.2} | {:.2} | {in_ascii} | {to_unmoved} |",
        ms(scan),
        ms(independent),
        ms(proved),
        ratio(proved, independent),
        ratio(proved, scan),
        ratio(proved, proved_a)
    );
}

fn main() {
    let given: Result<Vec<usize>, _> = std::env::args().skip(1).map(|size| size.parse()).collect();
    let sizes = match given {
        Ok(given) if given.is_empty() => SIZES.to_vec(),
        Ok(given) if given.iter().all(|size| (500..=65_535).contains(size)) => given,
        _ => {
            eprintln!("usage: bench [RECORDS...], each from 500 to 65535");
            exit(3);
        }
    };
    let of_both_flags = || (0..200).map(|number| (number, number as u8 % 2));
    let (small, large) = (sound_book(1_000, of_both_flags()), sound_book(LOCATIONS, of_both_flags()));
    let mut today = [0; 8];
    write_number(&mut today, TODAY);
    let debits = sound_book(1_000, (0..KINDS).map(|number| (number, 0)));
    println!(
        "| file | records | bare scan, ms | Rust judge, ms | proved judge, ms | proved / Rust | proved / scan | times (a) \
         | Rust judge in ASCII, ms | proved judge in ASCII, ms | proved, ASCII / EBCDIC \
         | proved, moved / as it was |"
    );
    println!("|---|---|---|---|---|---|---|---|---|---|---|---|");
    for records in sizes {
        let ids = |numbers: Vec<u64>| numbers.into_iter().map(digits).collect::<Vec<_>>();
        let (payments, batches) = (payments_of_one(records), batches_of_four_in(records));
        let accounts = accounts_of_one(records);
        let classes = sieve::classes(records - 2);
        let of_one_hash = |zero, bytes: &[u8]| ids_of_one_hash_and_start(payments, end_in_the_last(classes), zero, bytes);
        let printable: Vec<u8> = (0x20..=0x7E).rev().collect();
        type Make<'a> = &'a dyn Fn() -> Vec<u8>;
        // Each with what is lent as today.
        let ordinary: [(&str, Make, &[u8], &[u8]); 7] = [
            (
                "(a) one batch, IDs ascend",
                &|| one_batch(records, &ids(ascending(records))),
                &small,
                &[],
            ),
            (
                "(b) one batch, IDs shuffled",
                &|| one_batch(records, &ids(shuffled(records))),
                &small,
                &[],
            ),
            (
                "(c) batches of four records",
                &|| batches_of_four(records, &ascending(records)),
                &small,
                &[],
            ),
            (
                "(d) 30 DT and 10 DP a payment, 200,000 locations",
                &|| many_accounts(records),
                &large,
                &[],
            ),
            ("(e) check batch, 200,000 locations", &|| checks(records), &large, &[]),
            ("(e) with today lent", &|| checks(records), &large, &today),
            ("(f) batches of 100 payments", &|| batches_of_hundred(records), &small, &[]),
        ];
        // Each with the batches that are rejected.
        let hostile: [(&str, Make, usize); 23] = [
            (
                "(c) with schedule numbers shuffled",
                &|| batches_of_four(records, &shuffled(records)),
                0,
            ),
            (
                "(c) shuffled after a repeat",
                &|| batches_of_four(records, &shuffled_after_a_repeat(records)),
                1,
            ),
            (
                "(c) with schedule numbers descending",
                &|| batches_of_four(records, &descending(records)),
                0,
            ),
            (
                "(c) with schedule numbers equal but the last: all but two batches rejected",
                &|| batches_of_four(records, &equal_but_the_last(batches)),
                batches - 2,
            ),
            (
                "(c) shuffled, every second schedule number a repeat: every second batch rejected",
                &|| batches_of_four(records, &every_second_repeats(records)),
                batches / 2,
            ),
            (
                "(a) with 00 in every filler",
                &|| with_low_fillers(one_batch(records, &ids(ascending(records)))),
                0,
            ),
            (
                "(c) with 00 in every filler",
                &|| with_low_fillers(batches_of_four(records, &ascending(records))),
                0,
            ),
            ("(a) with IDs descending", &|| one_batch(records, &ids(descending(records))), 0),
            (
                "(a) with IDs equal but the last: batch rejected",
                &|| one_batch(records, &ids(equal_but_the_last(payments))),
                1,
            ),
            (
                "(b) with the first ID again at the end: batch rejected",
                &|| one_batch(records, &ids(shuffled_before_a_repeat(payments))),
                1,
            ),
            (
                "(b) with short IDs, each record's at another place",
                &|| with_ids_apart(one_batch(records, &shuffled(records).into_iter().map(short).collect::<Vec<_>>())),
                0,
            ),
            (
                "(f) of 190 payments, IDs share 19 bytes and descend",
                &|| batches_that_fall(records, &all_text()[..190]),
                0,
            ),
            (
                "(f) of 95 payments, IDs of characters share 19 bytes and descend",
                &|| batches_that_fall(records, &characters()),
                0,
            ),
            (
                "(f) of two payments, IDs share 19 bytes and descend",
                &|| batches_that_fall(records, &characters()[..2]),
                0,
            ),
            (
                "(b) with IDs of one hash",
                &|| one_batch(records, &in_shuffled_order(&ids_of_one_hash(records / 2, END))),
                0,
            ),
            (
                "(b) with IDs of one hash of the last class",
                &|| one_batch(records, &in_shuffled_order(&ids_of_one_hash(payments, end_in_the_last(classes)))),
                0,
            ),
            (
                "(a) with IDs of one hash of the last class, descending",
                &|| one_batch(records, &in_descending_order(ids_of_one_hash(payments, end_in_the_last(classes)))),
                0,
            ),
            (
                "(a) with IDs of one hash of the last class, nine bytes shared, descending",
                &|| one_batch(records, &of_one_hash(0xF0, &all_text())),
                0,
            ),
            (
                "(b) with IDs of characters and of one hash of the last class",
                &|| one_batch(records, &in_shuffled_order(&of_one_hash(0xF0, &characters()))),
                0,
            ),
            (
                "(a) with IDs of characters and of one hash of the last class, eight bytes shared, descending",
                &|| one_batch(records, &of_one_hash(0xF0, &characters())),
                0,
            ),
            (
                "(a) with IDs whose bytes in ASCII are of one hash of the last class, eight bytes shared, descending",
                &|| {
                    let ids = of_one_hash(b'0', &printable).into_iter();
                    one_batch(records, &ids.map(|id| id.map(to_ebcdic)).collect::<Vec<_>>())
                },
                0,
            ),
            (
                "(a) with up to 17 suspects, all at the end and of the last class, 16 bytes shared, descending",
                &|| one_batch(records, &ids_with_late_suspects(payments, classes)),
                0,
            ),
            (
                "(a) with these suspects and the last of them again: batch rejected",
                &|| {
                    let mut ids = ids_with_late_suspects(payments - 1, classes);
                    ids.push(ids[payments - 2]);
                    one_batch(records, &ids)
                },
                1,
            ),
        ];
        // The same, where the file has room for more kinds than a batch may have.
        let of_kinds: [(&str, Make, usize); 3] = [
            (
                "(g) one batch, 100 DT a payment, 1,000 kinds shuffled",
                &|| batch_of_accounts(records, &kinds_shuffled(accounts)),
                0,
            ),
            (
                "(h) as (g), kinds share 28 bytes and descend",
                &|| batch_of_accounts(records, &kinds_that_fall(accounts)),
                0,
            ),
            (
                "(i) as (g), the last DT of the 1,001st kind: batch rejected",
                &|| batch_of_accounts(records, &kinds_and_one_more(accounts)),
                1,
            ),
        ];
        // Each with whether it is measured moved, too.
        let ordinary = ordinary.map(|(name, make, book, today)| (name, make, book, today, 0, today.is_empty()));
        let hostile = hostile.map(|(name, make, rejected)| (name, make, &small[..], &[][..], rejected, false));
        let of_kinds = of_kinds.map(|(name, make, rejected)| (name, make, &debits[..], &[][..], rejected, false));
        let of_kinds = of_kinds.into_iter().filter(|_| accounts > KINDS);
        let mut proved_a = None;
        for (name, make, book, today, rejected, is_moved) in ordinary.into_iter().chain(hostile).chain(of_kinds) {
            let file = make();
            let times = measure(name, &file, book, today, rejected);
            let proved_a = *proved_a.get_or_insert(times.0[2]);
            print(name, records, times, proved_a, None);
            if is_moved {
                let (name, moved) = (format!("{name}, every field moved"), moved(&file));
                compare_reports(&name, &file, &moved, book);
                print(
                    &name,
                    records,
                    measure(&name, &moved, book, today, rejected),
                    proved_a,
                    Some(times.0[2]),
                );
            }
        }
    }
}
