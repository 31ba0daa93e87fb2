//! The calls on any buffers, with the refusals in the order of document 01's table and document 02.

use crate::fits;
use crate::hashing::{grown, highest_address, home, shape, shrunk, signature, MULTIPLIERS};
use crate::placement::{cut, lay_out, pack, position_valid, rule, unpack, with_homes, word_valid, write, Page, Star};
use crate::tray::{Report, PLACES};
use crate::{Buffers, Call, Growth, Kind, Outcome, Pages, Parameters, Record, Refused, HIGHEST_NUMBER};

struct Refusal {
    number: u32,
    page: usize,
    place: usize,
}

fn refuse<T>(number: u32) -> Result<T, Refusal> {
    Err(Refusal { number, page: 0, place: 0 })
}

fn damaged<T>(page: usize, place: usize) -> Result<T, Refusal> {
    Err(Refusal { number: 5, page, place })
}

/// Runs one call. An accepted one works on a copy, so that a refused one changes no page.
pub fn run(call: &Call, lent: &mut Buffers) -> Outcome {
    let mut copy = lent.clone();
    let outcome = match attempt(call, &mut copy) {
        Ok(outcome) => {
            *lent = copy;
            outcome
        }
        Err(refusal) => Outcome {
            refusal: refusal.number,
            page: refusal.page as u32,
            place: refusal.place as u32,
            ..unchanged(call)
        },
    };
    if call.kind.takes_pool() && !(1..=4).contains(&outcome.refusal) {
        lent.pool_numbers.fill(0);
        lent.pool_words.fill(0);
        lent.pool_owners.fill(0);
    }
    outcome
}

/// Zeros and the growth record as it was.
fn unchanged(call: &Call) -> Outcome {
    if call.kind == Kind::Make {
        return Outcome::default();
    }
    Outcome { record: call.record, ..Outcome::default() }
}

fn attempt(call: &Call, lent: &mut Buffers) -> Result<Outcome, Refusal> {
    if !values_valid(call) {
        return refuse(1);
    }
    if !lengths_right(call, lent) {
        return refuse(2);
    }
    if call.out_of_turn() {
        return refuse(16);
    }
    if call.kind.takes_number() && !(1..=HIGHEST_NUMBER).contains(&call.number) {
        return refuse(3);
    }
    let position_read = call.kind.takes_position() && !(call.kind == Kind::Report && call.removed != 0);
    if position_read && !position_valid(call.ra, call.dec) {
        return refuse(4);
    }
    let mut file = File { parameters: call.parameters, growth: call.record.growth, lent };
    match call.kind {
        Kind::Make => file.make(),
        Kind::Grow => return file.grow(),
        Kind::Shrink => return file.shrink(),
        Kind::Open => return file.open(),
        Kind::Step => return file.step(call.record),
        Kind::Due => return Ok(file.due(unchanged(call))),
        Kind::Check => file.check()?,
        Kind::LookUp | Kind::Enter | Kind::Change | Kind::Remove | Kind::Cascade => return on_a_star(call, &mut file),
        Kind::EnterStopped | Kind::ChangeStopped | Kind::RemoveStopped => return stopped(call, lent),
        Kind::Mend => file.mend()?,
        Kind::Write => return file.write_table(unchanged(call)),
        Kind::Read => file.read_table()?,
        Kind::Carry => file.carry(&call.new_parameters, &call.new_record.growth)?,
        Kind::Report => add_report(call, lent)?,
        Kind::Combined => return combined(call, &mut file),
        Kind::Filing => return Ok(file_reports(call, lent)),
    }
    Ok(unchanged(call))
}

/// The call that a stopped form stops, of whose changed pages only the first so many are stored, unless all are.
fn stopped(call: &Call, lent: &mut Buffers) -> Result<Outcome, Refusal> {
    let mut after = lent.clone();
    let outcome = attempt(&Call { kind: call.kind.stops().unwrap(), ..*call }, &mut after)?;
    let mut changed = lent.file.changed_pages(&call.parameters, &after.file);
    if call.kind == Kind::EnterStopped {
        changed.reverse();
    }
    if call.stores as usize >= changed.len() {
        lent.file = after.file;
        return Ok(outcome);
    }
    for &page in &changed[..call.stores as usize] {
        lent.file.copy_page(&call.parameters, page, &after.file);
    }
    Ok(outcome)
}

fn add_report(call: &Call, lent: &mut Buffers) -> Result<(), Refusal> {
    if lent.tray.count as usize == PLACES {
        return refuse(14);
    }
    let Call { number, ra, dec, caller: owner, removed, .. } = *call;
    lent.tray.add(call.parameters.multiplier, Report { number, ra, dec, owner, removed }.stored());
    Ok(())
}

/// The filter, then the tray, then the file.
fn combined(call: &Call, file: &mut File) -> Result<Outcome, Refusal> {
    let Some(report) = file.lent.tray.latest(call.parameters.multiplier, call.number) else {
        return on_a_star(&Call { kind: Kind::LookUp, ..*call }, file);
    };
    let none = Outcome { page: call.parameters.pages, ..unchanged(call) };
    match report {
        Report { removed: 0, ra, dec, .. } => Ok(Outcome { found: 1, ra, dec, ..none }),
        _ => Ok(none),
    }
}

/// Files the reports in order up to the first refusal.
fn file_reports(call: &Call, lent: &mut Buffers) -> Outcome {
    let mut outcome = unchanged(call);
    for report in lent.tray.waiting().to_vec() {
        let Outcome { refusal, page, place, .. } = file_report(call, report, lent);
        if refusal != 0 {
            outcome.inner = Refused { refusal, page, place };
            break;
        }
        outcome.filed += 1;
    }
    lent.tray.strike_out(call.parameters.multiplier, outcome.filed as usize);
    outcome
}

/// A held star is changed or removed, another entered; a removal of a star not held does nothing.
fn file_report(call: &Call, report: Report, lent: &mut Buffers) -> Outcome {
    let Report { number, ra, dec, owner: caller, removed } = report;
    let removed = removed != 0;
    let mut run = |kind| run(&Call { kind, caller, number, ra, dec, ..*call }, lent);
    match run(if removed { Kind::Remove } else { Kind::Change }) {
        Outcome { refusal: 7, .. } if removed => unchanged(call),
        Outcome { refusal: 7, .. } => run(Kind::Enter),
        outcome => outcome,
    }
}

/// The calls that take a number: each answers the place found on the page first named, also when refused after that.
fn on_a_star(call: &Call, file: &mut File) -> Result<Outcome, Refusal> {
    let Call { caller, number, ra, dec, .. } = *call;
    let named = file.sound_named(number)?;
    let place = file.place(named, number);
    let page = |page: usize| Outcome { page: page as u32, ..unchanged(call) };
    let answer = match call.kind {
        Kind::Enter | Kind::Cascade => {
            file.enter(call.kind, named, Star { number, word: pack(ra, dec), owner: caller }).map(page)
        }
        Kind::Change => file.change(named, caller, number, pack(ra, dec)).map(page),
        Kind::Remove => file.remove(named, caller, number).map(page),
        _ => Ok(file.look_up(named, number, page(named))),
    };
    match answer {
        Ok(outcome) => Ok(Outcome { place: place as u32, ..outcome }),
        Err(refusal) => Err(Refusal { place, ..refusal }),
    }
}

pub(crate) fn parameters_valid(p: &Parameters) -> bool {
    (1..=32).contains(&p.places)
        && (1..=256).contains(&p.groups)
        && (1..=4).contains(&p.width)
        && (1..=p.groups).contains(&p.step)
        && (1..=8).contains(&p.bits)
        && (1..=99).contains(&p.load)
        && (p.width * p.groups..=1_024).contains(&p.pages)
        && MULTIPLIERS.contains(&p.multiplier)
}

pub(crate) fn growth_valid(p: &Parameters, growth: &Growth) -> bool {
    // After more than ten doublings there would be more than 1,024 groups.
    if growth.expansions / p.width > 10 {
        return false;
    }
    let (n, groups) = shape(p, growth.expansions);
    let expanded = u64::from(growth.expanded);
    expanded < groups && n * groups + expanded <= p.pages.into()
}

fn record_valid(p: &Parameters, record: &Record) -> bool {
    let steps_valid = if record.open { record.steps < p.pages } else { record.steps == 0 };
    growth_valid(p, &record.growth) && steps_valid
}

/// Parameters and records; a new file has no record yet, and a file is carried to the other multiplier.
fn values_valid(call: &Call) -> bool {
    let Call { kind, parameters, record, new_parameters, new_record, .. } = call;
    parameters_valid(parameters)
        && (*kind == Kind::Make || record_valid(parameters, record))
        && (*kind != Kind::Carry
            || parameters_valid(new_parameters)
                && record_valid(new_parameters, new_record)
                && new_parameters.multiplier != parameters.multiplier)
}

fn lengths_right(call: &Call, lent: &Buffers) -> bool {
    let Call { kind, parameters, .. } = call;
    let pool = [lent.pool_numbers.len(), lent.pool_words.len(), lent.pool_owners.len()];
    (!kind.takes_file() || lent.file.fit(parameters))
        && (!kind.takes_second() || lent.second.fit(call.second_parameters()))
        && (!kind.takes_pool() || pool == [call.second_parameters().items(); 3])
        && (!kind.takes_tray() || lent.tray.fits())
}

/// A file whose parameters, growth state and lengths are right; its contents may be anything.
struct File<'a> {
    parameters: Parameters,
    growth: Growth,
    lent: &'a mut Buffers,
}

impl File<'_> {
    fn last_page(&self) -> usize {
        self.parameters.pages as usize - 1
    }

    fn items(&self, page: usize) -> std::ops::Range<usize> {
        let places = self.parameters.places as usize;
        page * places..(page + 1) * places
    }

    fn home(&self, number: u32) -> usize {
        home(&self.parameters, &self.growth, number.into()) as usize
    }

    fn at_top(&self, page: usize) -> bool {
        u64::from(self.lent.file.separators[page]) == self.parameters.top()
    }

    fn stars(&self, pages: std::ops::RangeInclusive<usize>) -> Vec<Star> {
        let items = self.items(*pages.start()).start..self.items(*pages.end()).end;
        items.map(|item| self.lent.file.star(item)).filter(|star| star.number != 0).collect()
    }

    /// The first place of a page that is empty or holds a number not below the one sought, or b if there is none.
    fn place(&self, page: usize, number: u32) -> usize {
        let numbers = &self.lent.file.numbers[self.items(page)];
        numbers.iter().position(|&other| other == 0 || other >= number).unwrap_or(numbers.len())
    }

    /// The item at which a page holds the number.
    fn held(&self, page: usize, number: u32) -> Option<usize> {
        self.items(page).find(|&item| self.lent.file.numbers[item] == number)
    }

    /// The same for the star of a caller; the institute may alter every star.
    fn own(&self, page: usize, caller: u8, number: u32) -> Result<usize, Refusal> {
        match self.held(page, number) {
            None => refuse(7),
            Some(item) if caller != 0 && caller != self.lent.file.owners[item] => refuse(13),
            Some(item) => Ok(item),
        }
    }

    /// The first page from home with a separator above the number's signature there.
    fn named(&self, number: u32) -> Option<usize> {
        let home = self.home(number);
        let signature = |page| signature(&self.parameters, number.into(), (page - home + 1) as u64);
        (home..=self.last_page()).find(|&page| u64::from(self.lent.file.separators[page]) > signature(page))
    }

    fn sound(&self, page: usize) -> bool {
        let numbers = &self.lent.file.numbers[self.items(page)];
        let words = &self.lent.file.words[self.items(page)];
        let owners = &self.lent.file.owners[self.items(page)];
        let count = numbers.iter().take_while(|&&number| number != 0).count();
        numbers[..count].windows(2).all(|pair| pair[0] < pair[1])
            && numbers[..count].iter().all(|&number| number <= HIGHEST_NUMBER)
            && numbers[count..].iter().all(|&number| number == 0)
            && words[..count].iter().all(|&word| word_valid(word))
            && words[count..].iter().all(|&word| word == 0)
            && owners[count..].iter().all(|&owner| owner == 0)
            && u64::from(self.lent.file.separators[page]) <= self.parameters.top()
            && numbers[..count].iter().all(|&number| self.named(number) == Some(page))
    }

    /// The page that the separators name, if it is sound.
    fn sound_named(&self, number: u32) -> Result<usize, Refusal> {
        match self.named(number) {
            Some(page) if self.sound(page) => Ok(page),
            Some(page) => damaged(page, 0),
            None => damaged(self.last_page() + 1, 0),
        }
    }

    fn all_sound(&self, place: usize) -> Result<(), Refusal> {
        match (0..=self.last_page()).find(|&page| !self.sound(page)) {
            Some(page) => damaged(page, place),
            None => Ok(()),
        }
    }

    fn rule(&self, stretch: std::ops::RangeInclusive<usize>, stars: Vec<Star>) -> (Vec<Page>, Vec<Star>) {
        rule(&self.parameters, &self.growth, stretch, stars)
    }

    fn write(&mut self, first: usize, pages: &[Page]) {
        write(&self.parameters, &mut self.lent.file, first, pages);
    }

    /// The same, and the page on which a star stands after it.
    fn write_with(&mut self, first: usize, pages: &[Page], star: Star) -> usize {
        self.write(first, pages);
        first + pages.iter().position(|page| page.stars.contains(&star)).unwrap()
    }

    fn make(&mut self) {
        self.lent.file = Pages::empty(&self.parameters);
    }

    fn look_up(&self, named: usize, number: u32, none: Outcome) -> Outcome {
        let Some(item) = self.held(named, number) else {
            return none;
        };
        let (ra, dec) = unpack(self.lent.file.words[item]);
        Outcome { found: 1, ra, dec, ..none }
    }

    fn enter(&mut self, kind: Kind, named: usize, new: Star) -> Result<usize, Refusal> {
        match self.held(named, new.number) {
            // A resend of the stored position is accepted, whoever calls, and reads no other page.
            Some(item) if self.lent.file.words[item] == new.word => Ok(named),
            Some(_) => refuse(6),
            None if kind == Kind::Cascade => self.cascade(named, new),
            None => self.place_in_reach(new),
        }
    }

    fn place_in_reach(&mut self, new: Star) -> Result<usize, Refusal> {
        let home = self.home(new.number);
        for last in home..=self.last_page() {
            if !self.sound(last) {
                return damaged(last, 0);
            }
            if !self.at_top(last) && last != self.last_page() {
                continue;
            }
            let mut stars = self.stars(home..=last);
            stars.push(new);
            let (pages, carried) = self.rule(home..=last, stars);
            if carried.is_empty() {
                return Ok(self.write_with(home, &pages, new));
            }
        }
        refuse(8)
    }

    /// From the named page upward, until nothing is carried on; no separator rises.
    fn cascade(&mut self, named: usize, new: Star) -> Result<usize, Refusal> {
        let with_homes = |stars| with_homes(&self.parameters, &self.growth, stars);
        let (mut pages, mut waiting) = (Vec::new(), with_homes(vec![new]));
        for page in named..=self.last_page() {
            if !self.sound(page) {
                return damaged(page, 0);
            }
            waiting.extend(with_homes(self.stars(page..=page)));
            waiting.sort_by_key(|&(_, star)| star);
            let (cut, carried) = cut(&self.parameters, page, self.lent.file.separators[page].into(), waiting);
            pages.push(cut);
            if carried.is_empty() {
                return Ok(self.write_with(named, &pages, new));
            }
            waiting = carried;
        }
        refuse(8)
    }

    fn change(&mut self, named: usize, caller: u8, number: u32, word: u64) -> Result<usize, Refusal> {
        let item = self.own(named, caller, number)?;
        self.lent.file.words[item] = word;
        Ok(named)
    }

    fn remove(&mut self, named: usize, caller: u8, number: u32) -> Result<usize, Refusal> {
        self.own(named, caller, number)?;
        let home = self.home(number);
        let last = (home..self.last_page()).find(|&page| self.at_top(page)).unwrap_or(self.last_page());
        if let Some(page) = (home..=last).find(|&page| !self.sound(page)) {
            return damaged(page, 0);
        }
        let mut stars = self.stars(home..=last);
        stars.retain(|star| star.number != number);
        let (pages, carried) = self.rule(home..=last, stars);
        assert!(carried.is_empty(), "over sound pages a removal carries nothing past its reach");
        self.write(home, &pages);
        Ok(named)
    }

    fn grow(&mut self) -> Result<Outcome, Refusal> {
        if highest_address(&self.parameters, &self.growth) as usize == self.last_page() {
            return refuse(8);
        }
        let next = grown(&self.parameters, &self.growth);
        self.place_all(next, highest_address(&self.parameters, &next))
    }

    fn shrink(&mut self) -> Result<Outcome, Refusal> {
        let Some(former) = shrunk(&self.parameters, &self.growth) else {
            return refuse(9);
        };
        self.place_all(former, highest_address(&self.parameters, &self.growth))
    }

    /// Places all stars anew under another growth state, and answers a page.
    fn place_all(&mut self, growth: Growth, page: u64) -> Result<Outcome, Refusal> {
        self.all_sound(0)?;
        self.growth = growth;
        let all = 0..=self.last_page();
        let (pages, carried) = self.rule(all.clone(), self.stars(all));
        if !carried.is_empty() {
            return refuse(8);
        }
        self.write(0, &pages);
        Ok(Outcome { page: page as u32, record: Record::closed(growth), ..Outcome::default() })
    }

    /// What growing would answer, and the pages that it would leave.
    fn grown(&self) -> Result<(Outcome, Pages), Refusal> {
        let mut copy = self.lent.clone();
        let outcome = File { parameters: self.parameters, growth: self.growth, lent: &mut copy }.grow()?;
        Ok((outcome, copy.file))
    }

    fn open(&mut self) -> Result<Outcome, Refusal> {
        self.grown()?;
        self.lent.second = Pages::empty(&self.parameters);
        Ok(Outcome { record: Record { growth: self.growth, open: true, steps: 0 }, ..Outcome::default() })
    }

    /// Step j + 1 writes page j; the last one answers the new page.
    fn step(&mut self, record: Record) -> Result<Outcome, Refusal> {
        let (outcome, grown) = self.grown()?;
        let page = record.steps as usize;
        self.lent.second.separators[page] = grown.separators[page];
        self.lent.second.copy_page(&self.parameters, page, &grown);
        if page == self.last_page() {
            return Ok(outcome);
        }
        Ok(Outcome { record: Record { steps: record.steps + 1, ..record }, ..Outcome::default() })
    }

    /// The distinct stars of all pages, placed by the rule; no separator is read.
    fn mend(&mut self) -> Result<(), Refusal> {
        let file = &self.lent.file;
        let all = || (0..file.numbers.len()).map(|item| file.star(item));
        let valid = |star: Star| match star.number {
            0 => star == Star::default(),
            number => number <= HIGHEST_NUMBER && word_valid(star.word),
        };
        let mut stars: Vec<Star> = file.stars().collect();
        stars.sort();
        stars.dedup();
        if !all().all(valid) || stars.windows(2).any(|pair| pair[0].number == pair[1].number) {
            return refuse(15);
        }
        self.replace(stars)
    }

    /// The file that the rule gives some stars.
    fn replace(&mut self, stars: Vec<Star>) -> Result<(), Refusal> {
        let Some(laid_out) = lay_out(&self.parameters, &self.growth, stars) else {
            return refuse(8);
        };
        self.lent.file = laid_out.file;
        Ok(())
    }

    fn write_table(&mut self, none: Outcome) -> Result<Outcome, Refusal> {
        self.all_sound(0)?;
        let mut stars: Vec<Star> = self.lent.file.stars().collect();
        stars.sort();
        let table = fits::table(&stars);
        if self.lent.table.len() < table.len() {
            return refuse(12);
        }
        self.lent.table[..table.len()].copy_from_slice(&table);
        Ok(Outcome { length: table.len() as u32, ..none })
    }

    fn read_table(&mut self) -> Result<(), Refusal> {
        match fits::stars(&self.lent.table) {
            Ok(stars) => self.replace(stars),
            Err(number) => refuse(number),
        }
    }

    /// The second set becomes the file of these stars under other parameters.
    fn carry(&mut self, parameters: &Parameters, growth: &Growth) -> Result<(), Refusal> {
        self.all_sound(0)?;
        let Some(laid_out) = lay_out(parameters, growth, self.lent.file.stars().collect()) else {
            return refuse(8);
        };
        self.lent.second = laid_out.file;
        Ok(())
    }

    fn due(&self, no: Outcome) -> Outcome {
        let stars = self.lent.file.numbers.iter().filter(|&&number| number != 0).count() as u64;
        let last = (0..=self.last_page()).rev().find(|&page| !self.stars(page..=page).is_empty());
        let pages_in_use = highest_address(&self.parameters, &self.growth).max(last.unwrap_or(0) as u64) + 1;
        let limit = u64::from(self.parameters.load * self.parameters.places) * pages_in_use;
        Outcome { due: (100 * stars > limit).into(), stars: stars as u32, ..no }
    }

    fn check(&self) -> Result<(), Refusal> {
        let places = self.parameters.places as usize;
        self.all_sound(places)?;
        let all = 0..=self.last_page();
        let (pages, carried) = self.rule(all.clone(), self.stars(all.clone()));
        assert!(carried.is_empty(), "over sound pages the rule carries nothing past the end");
        let mut expected = self.lent.file.clone();
        write(&self.parameters, &mut expected, 0, &pages);
        for page in all {
            if let Some(item) = self.items(page).find(|&item| self.lent.file.star(item) != expected.star(item)) {
                return damaged(page, item - page * places);
            }
            if self.lent.file.separators[page] != expected.separators[page] {
                return damaged(page, places);
            }
        }
        Ok(())
    }
}
