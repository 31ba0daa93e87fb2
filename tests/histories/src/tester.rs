//! Runs a call on the library and on the model and compares everything afterwards.

use interface::{LIBRARY, RECORD_CALLS, RECORD_KINDS};
use model::files::{lend, random_caller, random_pool, random_stores};
use model::placement::{unpack, Star};
use model::random::Random;
use model::vectors::Vector;
use model::{Buffers, Call, Kind, Outcome, Parameters, Record};
use std::fs;
use std::path::PathBuf;

/// Where the first failing calls are kept as vectors.
const FOLDER: &str = concat!(env!("CARGO_MANIFEST_DIR"), "/../../target/histories");

pub struct Tester {
    pub random: Random,
    pub calls: u64,
    /// How many of them ran again by crate growth_record's functions, on a lent growth record.
    pub on_records: u64,
    /// How often each kind of call got each refusal.
    pub refusals: [[u64; 17]; Kind::ALL.len()],
    /// How many pairs of histories ended in the same stars, positions, owners and growth state.
    pub alike: u64,
    /// How many stopped calls were mended, and how many of these files were neither the one before the call nor the one after.
    pub cuts: u64,
    pub torn: u64,
    pub failures: Vec<String>,
    saved: u32,
}

impl Tester {
    pub fn new() -> Tester {
        let (refusals, failures) = ([[0; 17]; Kind::ALL.len()], Vec::new());
        Tester { random: Random(0), calls: 0, on_records: 0, refusals, alike: 0, cuts: 0, torn: 0, failures, saved: 0 }
    }

    /// The outcome, with the growth record after the call, and the buffers that the model leaves.
    pub fn compare(&mut self, call: &Call, before: &Buffers) -> (Outcome, Buffers) {
        self.calls += 1;
        let mut after = before.clone();
        let mut outcome = model::run(call, &mut after);
        self.refusals[call.kind as usize][outcome.refusal as usize] += 1;
        outcome.record = call.record_after(&outcome);
        let vector = Vector { call: *call, before: before.clone(), outcome, after };
        let mut differences = vector.differences(LIBRARY);
        if RECORD_KINDS.contains(&call.kind) {
            self.on_records += 1;
            let others = vector.differences(RECORD_CALLS);
            differences.extend(others.iter().map(|difference| format!("on a lent record, {difference}")));
        }
        if !differences.is_empty() {
            let kept = self.keep(&vector).map_or(String::new(), |path| format!(" ({})", path.display()));
            self.fail(format!("{}{kept}", differences.join("; ")));
        }
        if call.kind == Kind::Grow {
            self.compare_marks(call, outcome.refusal == 0, before, &vector.after);
        }
        // A refusal with 5 tells that the file is not clean.
        if call.kind == Kind::Cascade && outcome.refusal != 5 && clean(call, before) {
            let entered = self.compare(&Call { kind: Kind::Enter, ..*call }, before);
            let alike = (entered.0, &entered.1) == (outcome, &vector.after);
            self.expect(alike, "a cascade into a clean file differs from the entry");
        }
        if outcome.refusal == 0 {
            self.check_others(call, before, &vector.after);
        }
        (outcome, vector.after)
    }

    /// An observer's entry, change or removal leaves the stars of others as they are, on whatever page.
    fn check_others(&mut self, call: &Call, before: &Buffers, after: &Buffers) {
        let alters = call.kind.enters() || matches!(call.kind, Kind::Change | Kind::Remove);
        let kept = || others(call.caller, before) == others(call.caller, after);
        self.expect(!alters || call.caller == 0 || kept(), "an observer altered another's star");
        // A stopped form may leave a star on two pages.
        let distinct = |lent: &Buffers| {
            let mut stars = others(call.caller, lent);
            stars.dedup();
            stars
        };
        let present = || !clean(call, before) || distinct(before) == distinct(after);
        let alters = call.kind.stops().is_some() && call.caller != 0;
        self.expect(!alters || present(), "an observer's stopped call altered another's star");
    }

    /// A stopped form of a call on a clean file, any separators after it, and a mending with any pool: the mended file is the
    /// one before the call, or the one after it exactly if the star's page was stored. Answers the stopped form's outcome,
    /// the mended buffers, and whether the call counts.
    pub fn cut(&mut self, call: &Call, before: &Buffers) -> (Outcome, Buffers, bool) {
        self.cuts += 1;
        let (mut after, plain) = (before.clone(), Call { kind: call.kind.stops().unwrap(), ..*call });
        let expected = model::run(&plain, &mut after);
        let (outcome, mut torn) = self.compare(call, before);
        self.expect(outcome == expected, "a stopped form answers otherwise than the call");
        let stored = stored_pages(call, before, &after);
        let whole = torn.file == before.file || torn.file == after.file;
        self.torn += u64::from(!whole);
        for separator in &mut torn.file.separators {
            let any = self.random.draw() as u8;
            *separator = self.random.pick(&[*separator, any]);
        }
        random_pool(&mut self.random, &mut torn);
        let record = Record::closed(call.record.growth);
        let (mended, lent) = self.compare(&Call { kind: Kind::Mend, record, ..*call }, &torn);
        let counts = outcome.refusal == 0 && stored.contains(&(outcome.page as usize));
        let expected = if counts { &after.file } else { &before.file };
        self.expect(mended.refusal == 0 && lent.file == *expected, "a mended file is neither the one before nor after");
        (outcome, lent, counts)
    }

    /// The marks of the pages that a growth may alter; an accepted growth of a clean file leaves the others alone.
    fn compare_marks(&mut self, call: &Call, accepted: bool, before: &Buffers, after: &Buffers) {
        let Call { parameters: p, record: Record { growth, .. }, .. } = call;
        let tidy = accepted && clean(call, before);
        let (before, after) = (&before.file, &after.file);
        let mut marks: Vec<u8> = before.separators.iter().map(|_| self.random.draw() as u8).collect();
        let top = u8::MAX >> 8u32.saturating_sub(p.bits).min(7);
        let random = after.separators.iter().map(|&old| self.random.pick(&[old, top, 0])).collect();
        for new in [&after.separators, &random] {
            let mut expected = marks.clone();
            let refusal = model::backup::mark_changed(p, growth, &before.separators, new, &mut expected);
            let answer = interface::mark_changed(p, growth, &before.separators, new, &mut marks);
            self.expect((answer, &marks) == (refusal, &expected), "marks of altered pages differ");
            if new != &after.separators || !tidy {
                continue;
            }
            for page in (0..p.pages as usize).filter(|&page| marks[page] == 0) {
                let mut items = page * p.places as usize..(page + 1) * p.places as usize;
                let same = before.separators[page] == after.separators[page]
                    && items.all(|item| before.star(item) == after.star(item));
                self.expect(same, "growth altered a page without a mark");
            }
        }
    }

    pub fn fail(&mut self, failure: String) {
        self.failures.push(failure);
    }

    pub fn expect(&mut self, holds: bool, failure: &str) {
        if !holds {
            self.fail(failure.to_string());
        }
    }

    fn keep(&mut self, vector: &Vector) -> Option<PathBuf> {
        self.saved += 1;
        let path = PathBuf::from(FOLDER).join(format!("failed-{}.txt", self.saved));
        let text = vector.text(LIBRARY.landed);
        let kept = self.saved <= 20 && fs::create_dir_all(FOLDER).is_ok() && fs::write(&path, text).is_ok();
        kept.then_some(path)
    }

    /// Every call on copies of one file: those that take a number, for each of the numbers, and resends.
    pub fn every_call(&mut self, parameters: Parameters, record: Record, lent: &Buffers, numbers: &[u32]) {
        for kind in LIBRARY.kinds() {
            let mut lent = lent.clone();
            if kind.takes_table() || kind.takes_tray() {
                lend(&mut self.random, kind, &mut lent);
            }
            let lent = &lent;
            let numbers = if kind.takes_number() { numbers } else { &[0] };
            for &number in numbers {
                let (ra, dec) = self.random.position();
                let caller = random_caller(&mut self.random);
                let stores = random_stores(&mut self.random);
                let removed = self.random.pick(&[0, 0, 1, 255]);
                let call = Call { caller, number, ra, dec, removed, stores, ..Call::new(kind, parameters, record) };
                self.compare(&call, lent);
                let enters = kind.enters() || kind == Kind::EnterStopped;
                if let (true, Some((ra, dec))) = (enters, stored(lent, number)) {
                    self.compare(&Call { ra, dec, ..call }, lent);
                }
            }
        }
    }

    /// A call like this one with one or two of its values or lengths wrong or unusual, on a copy.
    pub fn deviating_call(&mut self, mut call: Call, mut lent: Buffers) {
        for _ in 0..1 + self.random.below(2) {
            self.deviate(&mut call, &mut lent);
        }
        self.compare(&call, &lent);
    }

    fn deviate(&mut self, call: &mut Call, lent: &mut Buffers) {
        let random = &mut self.random;
        let any = random.draw() as u32;
        let small = random.below(40) as u32;
        let value = random.pick(&[0, 1, 8, 9, 32, 33, 99, 100, 256, 257, 1_024, 1_025, u32::MAX, any, small, small]);
        let p = &mut call.parameters;
        match random.below(37) {
            0 => p.places = value,
            1 => p.groups = value,
            2 => p.width = value,
            3 => p.step = value,
            4 => p.bits = value,
            5 => p.load = value,
            6 => p.pages = value,
            7 => p.multiplier = random.pick(&[16_806, 16_807, 16_808, 48_270, 48_271, 48_272, value]),
            8 => call.record.growth.expansions = value,
            9 => call.record.growth.expanded = value,
            10 => resize(random, &mut lent.file.separators),
            11 => resize(random, &mut lent.file.numbers),
            12 => resize(random, &mut lent.file.words),
            13 => resize(random, &mut lent.file.owners),
            14 => resize(random, &mut lent.pool_numbers),
            15 => resize(random, &mut lent.pool_words),
            16 => resize(random, &mut lent.pool_owners),
            17 => call.caller = random.pick(&[0, 1, 128, 255, any as u8]),
            18 => call.number = random.pick(&[0, 2_147_483_646, 2_147_483_647, 2_147_483_648, u32::MAX]),
            19 => call.record.open ^= true,
            20 => call.record.steps = random.pick(&[0, 1, p.pages.wrapping_sub(1), p.pages, value]),
            21 => (call.record.open, call.record.steps) = (true, random.pick(&[0, p.pages.wrapping_sub(1), p.pages])),
            22 => resize(random, &mut lent.second.separators),
            23 => resize(random, &mut lent.second.numbers),
            24 => resize(random, &mut lent.second.words),
            25 => resize(random, &mut lent.second.owners),
            26 => call.stores = random.pick(&[0, 1, 2, value]),
            27 => resize(random, &mut lent.table),
            28 => call.new_parameters.multiplier = random.pick(&[16_807, 48_271, value]),
            29 => call.new_parameters.pages = value,
            30 => call.new_record.steps = random.pick(&[0, 1, value]),
            31 => (call.new_record.open, call.new_record.growth.expanded) = (random.once_in(2), small),
            32 => resize(random, &mut lent.tray.reports),
            33 => resize(random, &mut lent.tray.filter),
            34 => lent.tray.count = random.pick(&[0, 255, 256, 257, value]),
            35 => call.removed = random.pick(&[0, 1, 2, 255]),
            _ => {
                call.ra = random.pick(&[0, 1_295_999_999, 1_296_000_000, u32::MAX, any]);
                call.dec = random.pick(&[-324_000_001, -324_000_000, 324_000_000, 324_000_001, i32::MIN, any as i32]);
            }
        }
    }
}

/// The pages that a stopped form stores, from the files before and after the call.
fn stored_pages(call: &Call, before: &Buffers, after: &Buffers) -> Vec<usize> {
    let mut changed = before.file.changed_pages(&call.parameters, &after.file);
    if call.kind == Kind::EnterStopped {
        changed.reverse();
    }
    changed.truncate(call.stores as usize);
    changed
}

/// How many pages a call changes.
pub fn stores(call: &Call, before: &Buffers) -> u32 {
    let mut after = before.clone();
    model::run(&Call { kind: call.kind.stops().unwrap(), ..*call }, &mut after);
    before.file.changed_pages(&call.parameters, &after.file).len() as u32
}

/// Whether the model's check accepts the buffers of a call.
fn clean(call: &Call, lent: &Buffers) -> bool {
    model::run(&Call { kind: Kind::Check, ..*call }, &mut lent.clone()).refusal == 0
}

/// The stars of all but one owner, in rising order.
fn others(owner: u8, lent: &Buffers) -> Vec<Star> {
    let mut stars: Vec<Star> = lent.file.stars().filter(|star| star.owner != owner).collect();
    stars.sort();
    stars
}

/// The position that the file holds for a number, if it holds one.
pub fn stored(lent: &Buffers, number: u32) -> Option<(u32, i32)> {
    let item = lent.file.numbers.iter().position(|&other| other == number)?;
    lent.file.words.get(item).map(|&word| unpack(word))
}

fn resize<T: Clone + Default>(random: &mut Random, list: &mut Vec<T>) {
    let length = list.len();
    let length = random.pick(&[0, length.saturating_sub(1), length + 1, 2 * length]);
    list.resize(length, T::default());
}
