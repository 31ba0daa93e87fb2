//! A history with the plain book beside it.

use crate::carryings::{carry_back, carrying};
use crate::tables::write_again;
use crate::tester::{stores, Tester};
use model::files::*;
use model::hashing::{grown, highest_address, home, shrunk, signature};
use model::placement::{entered_stretch, lay_out, pack, unpack, Star};
use model::{fits, Buffers, Call, Growth, Kind, Outcome, Pages, Parameters, Record};
use std::collections::BTreeMap;
use std::ops::RangeInclusive;

pub struct History {
    pub parameters: Parameters,
    pub record: Record,
    pub lent: Buffers,
    /// The book: the stars by number, and its own (e, x). It is fed accepted calls and never sees the file.
    pub book: BTreeMap<u32, Star>,
    book_growth: Growth,
    /// The numbers that calls choose from.
    pub numbers: Vec<u32>,
    /// Whether growths are more frequent at present than shrinks.
    rising: bool,
}

impl History {
    /// From the empty file that making one leaves in buffers with anything in them.
    pub fn new(tester: &mut Tester, parameters: Parameters) -> History {
        let mut lent = Buffers::zeros(&parameters);
        lent.file.separators.iter_mut().for_each(|separator| *separator = tester.random.draw() as u8);
        lent.file.numbers.iter_mut().for_each(|number| *number = tester.random.draw() as u32);
        lent.file.words.iter_mut().for_each(|word| *word = tester.random.draw());
        lent.file.owners.iter_mut().for_each(|owner| *owner = tester.random.draw() as u8);
        let record = Record::default();
        let call = Call::new(Kind::Make, parameters, record);
        let (_, lent) = tester.compare(&call, &lent);
        History::from(tester, parameters, record.growth, lent)
    }

    /// From a file that the check accepts.
    pub fn from(tester: &mut Tester, parameters: Parameters, growth: Growth, mut lent: Buffers) -> History {
        random_second(&mut tester.random, &mut lent);
        let book: BTreeMap<u32, Star> = lent.file.stars().map(|star| (star.number, star)).collect();
        let mut numbers: Vec<u32> = book.keys().copied().collect();
        numbers.extend([1, 2, 2_147_483_645, 2_147_483_646]);
        numbers.extend((0..parameters.items() / 2 + 4).map(|_| tester.random.star_number()));
        let record = Record::closed(growth);
        History { parameters, record, lent, book, book_growth: growth, numbers, rising: true }
    }

    /// One random call, now and then one with wrong values beside it.
    pub fn step(&mut self, tester: &mut Tester) {
        self.rising ^= tester.random.once_in(60);
        let seldom = tester.random.once_in(5);
        if tester.random.once_in(if self.record.open { 40 } else { 12 }) {
            return self.lose_power(tester);
        }
        let kind = match tester.random.below(100) {
            _ if self.record.open && tester.random.once_in(2) => Kind::Step,
            0..=37 => random_entry(&mut tester.random),
            38..=57 => Kind::Remove,
            58..=75 => Kind::LookUp,
            76..=82 => Kind::Change,
            83..=92 if self.rising != seldom => Kind::Grow,
            83..=92 => Kind::Shrink,
            93 | 94 => Kind::Due,
            95 => Kind::Write,
            96 => tester.random.pick(&[Kind::Open, Kind::Mend]),
            97 => Kind::Step,
            _ => Kind::Check,
        };
        let number = tester.random.pick(&self.numbers);
        if tester.random.once_in(8) {
            lend(&mut tester.random, kind, &mut self.lent);
            let star = Star { number, ..random_star(&mut tester.random) };
            tester.deviating_call(self.make_call(kind, star), self.lent.clone());
        }
        self.call(tester, kind, number);
    }

    /// A growth or a shrink, whichever leads to another growth state.
    pub fn towards(&mut self, tester: &mut Tester, wanted: Growth) -> Outcome {
        let order = |growth: Growth| (growth.expansions, growth.expanded);
        if order(self.record.growth) < order(wanted) {
            return self.grow(tester);
        }
        self.call(tester, Kind::Shrink, 0)
    }

    /// A growth, at once or in steps.
    pub fn grow(&mut self, tester: &mut Tester) -> Outcome {
        if tester.random.once_in(4) && self.parameters.pages < 64 {
            return self.grow_in_steps(tester);
        }
        self.call(tester, Kind::Grow, 0)
    }

    /// Opens a growth and does all its steps, with other calls between them; the answer of the opening, if it is refused, or of
    /// the last step.
    pub fn grow_in_steps(&mut self, tester: &mut Tester) -> Outcome {
        let mut outcome = self.call(tester, Kind::Open, 0);
        while self.record.open {
            if tester.random.once_in(3) {
                let kind = tester.random.pick(&Kind::ALL[1..Kind::Step as usize]);
                let kind = tester.random.pick(&[Kind::LookUp, kind]);
                let number = tester.random.pick(&self.numbers);
                self.call(tester, kind, number);
            }
            outcome = self.call(tester, Kind::Step, 0);
        }
        outcome
    }

    /// A power loss during an entry, change or removal, or at rest: then the record says that nothing is open, the separators
    /// may be anything, and the pages are mended. The book counts the call if the mended file is the one after it.
    pub fn lose_power(&mut self, tester: &mut Tester) {
        let kind =
            tester.random.pick(&[Kind::EnterStopped, Kind::EnterStopped, Kind::RemoveStopped, Kind::ChangeStopped]);
        let number = tester.random.pick(&self.numbers);
        let held = self.book.get(&number).filter(|_| tester.random.once_in(2));
        let star = Star { number, ..*held.unwrap_or(&random_star(&mut tester.random)) };
        let call = self.make_call(kind, star);
        // At rest, also while a growth is open, is before the first store.
        let at_rest = self.record.open || tester.random.once_in(5);
        let most = if at_rest { 0 } else { stores(&call, &self.lent) + 1 };
        let call = Call { stores: tester.random.below(u64::from(most) + 1) as u32, ..call };
        random_pool(&mut tester.random, &mut self.lent);
        let (outcome, mended, counts) = tester.cut(&call, &self.lent);
        (self.lent, self.record) = (mended, Record::closed(self.record.growth));
        if counts {
            self.feed(&Call { kind: kind.stops().unwrap(), ..call }, &outcome);
        }
        self.check_file(tester);
    }

    /// A call with the star's number and position, for its owner.
    pub fn make_call(&self, kind: Kind, star: Star) -> Call {
        let (ra, dec) = unpack(star.word);
        let (parameters, record) = (self.parameters, self.record);
        Call { caller: star.owner, number: star.number, ra, dec, ..Call::new(kind, parameters, record) }
    }

    /// Runs a call for a random caller, or for the owner that the book has.
    pub fn call(&mut self, tester: &mut Tester, kind: Kind, number: u32) -> Outcome {
        let held = self.book.get(&number).filter(|_| tester.random.once_in(2));
        let caller = held.map_or_else(|| random_caller(&mut tester.random), |star| star.owner);
        self.call_as(tester, caller, kind, number)
    }

    /// Runs a call with a random position, or with the one that the book has.
    pub fn call_as(&mut self, tester: &mut Tester, caller: u8, kind: Kind, number: u32) -> Outcome {
        let star = random_star(&mut tester.random);
        let held = self.book.get(&number).filter(|_| tester.random.once_in(2));
        self.call_with(tester, kind, Star { number, owner: caller, ..*held.unwrap_or(&star) })
    }

    /// Reads a table under the file's parameters or others, over buffers with anything in them. Accepted, the book begins anew under
    /// them with the rows as entries of the institute; refused, the history goes on as if nothing had been.
    pub fn read_table(&mut self, tester: &mut Tester) {
        let other = small_parameters(&mut tester.random);
        let parameters = tester.random.pick(&[self.parameters, other]);
        let growth = random_growth(&mut tester.random, &parameters);
        let record = Record { growth, ..tester.random.pick(&[self.record, Record::default(), Record::default()]) };
        let mut lent = Buffers { table: Vec::new(), ..self.lent.clone() };
        random_table(&mut tester.random, &mut lent);
        if parameters != self.parameters {
            let (table, file) = (lent.table, Pages::empty(&parameters));
            lent = Buffers { table, file, ..Buffers::zeros(&parameters) };
            random_second(&mut tester.random, &mut lent);
        }
        random_pool(&mut tester.random, &mut lent);
        let call = Call::new(Kind::Read, parameters, record);
        let (outcome, after) = tester.compare(&call, &lent);
        let rows = fits::stars(&lent.table);
        let begun = rows.as_ref().ok().and_then(|rows| lay_out(&parameters, &growth, rows.clone()));
        let accepted = outcome.refusal == 0;
        let ready = ![1, 16].contains(&outcome.refusal);
        tester.expect(!ready || accepted == begun.is_some(), "a reading differs from the book begun anew");
        if !accepted {
            return;
        }
        write_again(tester, &call, &after);
        self.begin_anew(tester, parameters, growth, after, rows.unwrap_or_default());
    }

    /// Carries the file to the other multiplier and back; neither alters it or its book.
    pub fn carry_from(&mut self, tester: &mut Tester) {
        let other = small_parameters(&mut tester.random).under(self.parameters.carried().multiplier);
        let new = tester.random.pick(&[self.parameters.carried(), other]);
        let (call, lent) = carrying(tester, &Call::new(Kind::Carry, self.parameters, self.record), new, &self.lent);
        let (outcome, after) = tester.compare(&call, &lent);
        let book = self.book.values().copied().collect();
        let expected = lay_out(&new, &call.new_record.growth, book);
        tester.expect(
            outcome.refusal == if expected.is_some() { 0 } else { 8 },
            "a carrying is refused otherwise than the book",
        );
        if let Some(expected) = expected {
            tester.expect(after.second == expected.file, "a carrying leaves another file than the book's");
            let (back, restored) = carry_back(tester, &call, &after);
            let same = back.refusal == 0 && restored.second == self.lent.file;
            tester.expect(same, "carrying there and back does not restore the file");
        }
        self.check_file(tester);
    }

    /// Carries another file, sound or damaged, into this one's buffers or into others; accepted, the book begins anew.
    pub fn carry_into(&mut self, tester: &mut Tester) {
        let other = small_parameters(&mut tester.random);
        let new = tester.random.pick(&[self.parameters, other]);
        let old = small_parameters(&mut tester.random).under(new.carried().multiplier);
        let old_growth = random_growth(&mut tester.random, &old);
        let mut source = clean_file(&mut tester.random, &old, &old_growth, 80);
        if tester.random.once_in(4) {
            let bit = tester.random.below(bits(&source) as u64) as usize;
            flip(&mut source, bit);
        }
        let record = random_record(&mut tester.random, &old, old_growth);
        let (mut call, mut lent) = carrying(tester, &Call::new(Kind::Carry, old, record), new, &source);
        if new == self.parameters {
            (call.new_record, lent.second) = (self.record, self.lent.file.clone());
        }
        let (outcome, after) = tester.compare(&call, &lent);
        if outcome.refusal != 0 {
            let left = after.second == lent.second;
            return tester.expect(left, "a refused carrying alters the file");
        }
        let file = Buffers { file: after.second, ..Buffers::zeros(&new) };
        self.begin_anew(tester, new, call.new_record.growth, file, source.file.stars().collect());
    }

    /// An empty file and book under these parameters, into which the stars are entered.
    fn begin_anew(
        &mut self,
        tester: &mut Tester,
        parameters: Parameters,
        growth: Growth,
        lent: Buffers,
        stars: Vec<Star>,
    ) {
        let numbers = std::mem::take(&mut self.numbers);
        *self = History::from(tester, parameters, growth, lent);
        let book = stars.into_iter().map(|star| (star.number, star)).collect();
        tester.expect(self.book == book, "a file begun anew has other stars");
        self.numbers.extend(numbers);
        self.check_file(tester);
    }

    /// Runs a call with a random pool, feeds the book, and compares the file with the book's.
    pub fn call_with(&mut self, tester: &mut Tester, kind: Kind, star: Star) -> Outcome {
        lend(&mut tester.random, kind, &mut self.lent);
        let (call, number) = (self.make_call(kind, star), star.number);
        let (outcome, after) = tester.compare(&call, &self.lent);
        if kind.takes_number() && !call.out_of_turn() {
            tester.expect(self.first_place(number) == outcome.place as usize, "a call answers another place");
        }
        if outcome.refusal == 0 {
            self.check_pages_read(tester, &call, &outcome, &after);
            self.undo(tester, &call, &outcome, &after);
            self.grow_at_once(tester, &call, &outcome, &after);
        }
        (self.lent, self.record) = (after, outcome.record);
        if finishes(&call, &outcome) {
            std::mem::swap(&mut self.lent.file, &mut self.lent.second);
        }
        self.check_answer(tester, &call, &outcome);
        if outcome.refusal == 0 {
            self.feed(&call, &outcome);
        }
        self.check_file(tester);
        outcome
    }

    /// An unfinished growth counts as not begun, a finished one as accepted at its last step.
    fn feed(&mut self, call: &Call, outcome: &Outcome) {
        let word = pack(call.ra, call.dec);
        match call.kind {
            // A resend leaves the star as it is.
            Kind::Enter | Kind::Cascade => {
                self.book.entry(call.number).or_insert(Star { number: call.number, word, owner: call.caller });
            }
            Kind::Change => self.book.get_mut(&call.number).unwrap().word = word,
            Kind::Remove => {
                self.book.remove(&call.number);
            }
            Kind::Grow => self.book_growth = grown(&self.parameters, &self.book_growth),
            Kind::Step if finishes(call, outcome) => self.book_growth = grown(&self.parameters, &self.book_growth),
            Kind::Shrink => self.book_growth = shrunk(&self.parameters, &self.book_growth).unwrap(),
            _ => {}
        }
    }

    fn check_answer(&self, tester: &mut Tester, call: &Call, outcome: &Outcome) {
        tester.expect(outcome.refusal != 5, "a call of a history is refused with 5");
        tester.expect(
            (outcome.refusal == 16) == call.out_of_turn(),
            "a call does not wait for its turn, or waits in vain",
        );
        if outcome.refusal == 16 {
            return;
        }
        let held = self.book.get(&call.number);
        match call.kind {
            Kind::LookUp => {
                let book = held.map(|star| unpack(star.word));
                let answer = (outcome.found == 1).then_some((outcome.ra, outcome.dec));
                tester.expect(outcome.refusal == 0 && answer == book, "a look-up differs from the book");
                tester.expect(self.first_page(call.number) == outcome.page.into(), "a look-up names another page");
            }
            Kind::Enter | Kind::Cascade => {
                let as_held = match held {
                    Some(star) if star.word == pack(call.ra, call.dec) => outcome.refusal == 0,
                    _ => (outcome.refusal == 6) == held.is_some(),
                };
                tester.expect(as_held, "an entry differs from the book");
            }
            Kind::Change | Kind::Remove => {
                let refusal = match held {
                    None => 7,
                    Some(star) if ![0, star.owner].contains(&call.caller) => 13,
                    Some(_) => 0,
                };
                tester.expect(outcome.refusal == refusal, "a change or removal differs from the book");
            }
            Kind::Grow | Kind::Open | Kind::Step => {
                let next = grown(&self.parameters, &self.book_growth);
                let page = highest_address(&self.parameters, &next);
                let fits = page < self.parameters.pages.into() && self.laid_out(&next).is_some();
                let answers_page = call.kind == Kind::Grow || finishes(call, outcome);
                self.check_placed(tester, outcome, if fits { 0 } else { 8 }, if answers_page { page } else { 0 });
            }
            Kind::Shrink => {
                let page = highest_address(&self.parameters, &self.book_growth);
                let refusal = match shrunk(&self.parameters, &self.book_growth) {
                    None => 9,
                    Some(former) if self.laid_out(&former).is_none() => 8,
                    Some(_) => 0,
                };
                self.check_placed(tester, outcome, refusal, page);
            }
            Kind::Due => {
                tester.expect(outcome.stars as usize == self.book.len(), "due counts other stars");
                tester.expect((outcome.due == 1) == self.due(), "due differs from the book");
            }
            Kind::Write => {
                let table = fits::table(&self.book.values().copied().collect::<Vec<_>>());
                let fits = self.lent.table.len() >= table.len();
                let written = outcome.length as usize == table.len() && self.lent.table.starts_with(&table);
                let as_book = if fits { outcome.refusal == 0 && written } else { outcome.refusal == 12 };
                tester.expect(as_book, "a table differs from the book");
            }
            _ => {}
        }
    }

    fn check_placed(&self, tester: &mut Tester, outcome: &Outcome, refusal: u32, page: u64) {
        let page = if refusal == 0 { page } else { 0 };
        let as_book = (outcome.refusal, u64::from(outcome.page)) == (refusal, page);
        tester.expect(as_book, "a growth or shrink differs from the book");
    }

    /// Whether the book's stars are more than A per cent of the places on pages in use.
    fn due(&self) -> bool {
        let Parameters { places, load, .. } = self.parameters;
        let last_star = self.lent.file.numbers.iter().rposition(|&number| number != 0).unwrap_or(0) as u64;
        let last_page = highest_address(&self.parameters, &self.record.growth).max(last_star / u64::from(places));
        100 * self.book.len() as u64 > u64::from(load * places) * (last_page + 1)
    }

    /// The first page from home whose separator is above the signature there.
    fn first_page(&self, number: u32) -> u64 {
        let home = home(&self.parameters, &self.record.growth, number.into());
        let signature = |page: u64| signature(&self.parameters, number.into(), page - home + 1);
        (home..).find(|&page| u64::from(self.lent.file.separators[page as usize]) > signature(page)).unwrap()
    }

    /// How many lower numbers stand on that page.
    fn first_place(&self, number: u32) -> usize {
        let places = self.parameters.places as usize;
        let first = self.first_page(number) as usize * places;
        self.lent.file.numbers[first..first + places].iter().filter(|&&other| other != 0 && other < number).count()
    }

    /// The book's stars by the rule under a growth state.
    fn laid_out(&self, growth: &Growth) -> Option<Buffers> {
        lay_out(&self.parameters, growth, self.book.values().copied().collect())
    }

    pub fn check_file(&self, tester: &mut Tester) {
        let same = self.laid_out(&self.book_growth).is_some_and(|expected| self.same_file(&expected));
        tester.expect(same && self.record.growth == self.book_growth, "the file is not the book's");
        if self.record.open {
            let next = grown(&self.parameters, &self.book_growth);
            let done = self.laid_out(&next).map(|grown| second_after(&self.parameters, &grown.file, self.record.steps));
            tester.expect(
                done.as_ref() == Some(&self.lent.second),
                "an open growth has left other pages than the book's",
            );
        }
    }

    /// Whether other buffers hold the same separators and pages.
    pub fn same_file(&self, other: &Buffers) -> bool {
        self.lent.file == other.file
    }

    /// A growth done in steps leaves and answers what the growth at once does.
    fn grow_at_once(&self, tester: &mut Tester, call: &Call, outcome: &Outcome, after: &Buffers) {
        if !finishes(call, outcome) {
            return;
        }
        let call = Call { kind: Kind::Grow, record: Record::closed(call.record.growth), ..*call };
        let (grown, at_once) = tester.compare(&call, &self.lent);
        let same = grown == *outcome && at_once.file == after.second;
        tester.expect(same, "a growth in steps differs from the growth at once");
    }

    /// A shrink right after an accepted growth gives back the file from before it, and a growth after an accepted shrink.
    fn undo(&self, tester: &mut Tester, call: &Call, outcome: &Outcome, after: &Buffers) {
        let kind = match call.kind {
            Kind::Grow => Kind::Shrink,
            Kind::Shrink => Kind::Grow,
            _ => return,
        };
        let (back, restored) = tester.compare(&Call { kind, record: outcome.record, ..*call }, after);
        let same = back.refusal == 0 && back.page == outcome.page && back.record == self.record;
        tester.expect(same && self.same_file(&restored), "a growth and a shrink do not undo each other");
    }

    /// The pages whose contents an accepted call reads, where the documents name them: one by a look-up or a resend; by a
    /// cascade those from the named one to the first past which nothing is carried.
    fn pages_read(&self, call: &Call, after: &Buffers) -> Option<RangeInclusive<usize>> {
        let named = || self.first_page(call.number) as usize;
        let (places, before) = (self.parameters.places as usize, &self.lent.file.numbers);
        match call.kind {
            Kind::LookUp => Some(named()..=named()),
            kind if kind.enters() && self.book.contains_key(&call.number) => Some(named()..=named()),
            Kind::Cascade => Some(entered_stretch(places, named(), before, &after.file.numbers, |_| true)),
            _ => None,
        }
    }

    /// The same call where every page that it does not read has other contents answers and writes the same; where one page
    /// that it reads is damaged, that page is 5.
    fn check_pages_read(&self, tester: &mut Tester, call: &Call, outcome: &Outcome, after: &Buffers) {
        let Some(read) = self.pages_read(call, after) else {
            return;
        };
        let places = self.parameters.places as usize;
        let (mut lent, mut expected) = (self.lent.clone(), after.clone());
        for item in (0..lent.file.numbers.len()).filter(|item| !read.contains(&(item / places))) {
            lent.file.numbers[item] = tester.random.draw() as u32;
            lent.file.words[item] = tester.random.draw();
            lent.file.owners[item] = tester.random.draw() as u8;
            expected.file.numbers[item] = lent.file.numbers[item];
            expected.file.words[item] = lent.file.words[item];
            expected.file.owners[item] = lent.file.owners[item];
        }
        let other = tester.compare(call, &lent);
        tester.expect(other == (*outcome, expected), "a call depends on a page that it does not read");
        let damaged = tester.random.pick(&Vec::from_iter(read));
        lent.file.words[damaged * places] = u64::MAX;
        let (refused, _) = tester.compare(call, &lent);
        let met = (refused.refusal, refused.page as usize) == (5, damaged);
        tester.expect(met, "a call does not meet the damage on a page that it reads");
    }
}

/// Whether this was the last step of a growth.
pub fn finishes(call: &Call, outcome: &Outcome) -> bool {
    call.kind == Kind::Step && outcome.refusal == 0 && !outcome.record.open
}
