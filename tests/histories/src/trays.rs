//! The tray of reports and its filter.

use crate::history::History;
use crate::tester::Tester;
use model::files::*;
use model::placement::{pack, unpack, Star};
use model::tray::{bits_set, filter_of, Report, PLACES};
use model::{Call, Kind, Outcome, Parameters, Record};

/// The call that adds a report.
fn adding(parameters: Parameters, record: Record, report: Report) -> Call {
    let Report { number, ra, dec, owner: caller, removed } = report;
    Call { number, ra, dec, caller, removed, ..Call::new(Kind::Report, parameters, record) }
}

/// One of the tray's calls.
fn tray_kind(tester: &mut Tester) -> Kind {
    tester.random.pick(&[Kind::Report, Kind::Combined, Kind::Filing])
}

/// How many bits of a filter are set, by library and model.
fn compare_bits(tester: &mut Tester, filter: &[u64]) {
    tester.expect(interface::filter_bits(filter) == bits_set(filter), "another number of bits is set");
}

impl History {
    /// One random call on the tray or on the file.
    fn tray_step(&mut self, tester: &mut Tester) {
        match tester.random.below(12) {
            0..=5 => self.add_report(tester),
            6..=8 => self.look_up_with_tray(tester),
            9 => self.file_reports(tester),
            _ => self.step(tester),
        }
        if tester.random.once_in(8) {
            let kind = tray_kind(tester);
            let number = tester.random.pick(&self.numbers);
            let star = Star { number, ..random_star(&mut tester.random) };
            tester.deviating_call(self.make_call(kind, star), self.lent.clone());
        }
        self.check_tray(tester);
    }

    /// Adds a report on a star, often for the owner that the book has; it may find the tray full.
    fn add_report(&mut self, tester: &mut Tester) {
        let number = tester.random.pick(&self.numbers);
        let held = self.book.get(&number).filter(|_| tester.random.once_in(2));
        let star = Star { number, ..*held.unwrap_or(&random_star(&mut tester.random)) };
        let (ra, dec) = unpack(star.word);
        let removed = tester.random.pick(&[0, 0, 0, 1, 255]);
        let report = Report { number, ra, dec, owner: star.owner, removed };
        let before = self.lent.tray.clone();
        let (outcome, after) = tester.compare(&adding(self.parameters, self.record, report), &self.lent);
        let full = before.count as usize == PLACES;
        tester.expect(outcome.refusal == if full { 14 } else { 0 }, "adding differs from the count");
        let mut expected = before.waiting().to_vec();
        if !full {
            expected.push(report.stored());
        }
        tester.expect(after.tray.waiting() == expected, "a report is not added behind the others");
        self.lent = after;
    }

    /// The latest report on a star answers, else the book.
    fn look_up_with_tray(&mut self, tester: &mut Tester) {
        let number = tester.random.pick(&self.numbers);
        let call = self.make_call(Kind::Combined, Star { number, ..Star::default() });
        let (outcome, after) = tester.compare(&call, &self.lent);
        tester.expect(after == self.lent, "a look-up changes what it was lent");
        let latest = self.lent.tray.waiting().iter().rev().find(|report| report.number == number);
        let expected = match latest {
            Some(report) => (report.removed == 0).then_some((report.ra, report.dec)),
            None => self.book.get(&number).map(|star| unpack(star.word)),
        };
        let answer = (outcome.found == 1).then_some((outcome.ra, outcome.dec));
        tester.expect(outcome.refusal == 0 && answer == expected, "a look-up differs from tray and book");
        let reported = (outcome.page, outcome.place) == (self.parameters.pages, 0);
        tester.expect(reported == latest.is_some(), "a report answers with another page or place");
    }

    /// Files the reports and feeds the book with each as the call that it made.
    fn file_reports(&mut self, tester: &mut Tester) {
        random_pool(&mut tester.random, &mut self.lent);
        let waiting = self.lent.tray.waiting().to_vec();
        let call = self.make_call(Kind::Filing, Star::default());
        let (outcome, after) = tester.compare(&call, &self.lent);
        tester.expect(
            (outcome.refusal == 16) == self.record.open,
            "a filing does not wait for its turn, or waits in vain",
        );
        self.lent = after;
        if outcome.refusal != 0 {
            tester.expect(self.lent.tray.waiting() == waiting, "a refused filing alters the tray");
            return self.check_file(tester);
        }
        let Outcome { filed, inner, .. } = outcome;
        let (filed, rest) = waiting.split_at(filed as usize);
        for report in filed {
            let refusal = self.feed_report(report);
            tester.expect(refusal == 0, "a report is filed that the book refuses");
        }
        tester
            .expect((inner.refusal == 0) == rest.is_empty(), "a filing stops without a refusal, or goes on after one");
        if let Some(report) = rest.first() {
            let new = !self.book.contains_key(&report.number);
            let expected = if new { 8 } else { 13 };
            tester.expect(
                inner.refusal == expected && (new || self.feed_report(report) == 13),
                "a filing stops otherwise than the book",
            );
        }
        tester.expect(self.lent.tray.waiting() == rest, "a filing leaves other reports than those not filed");
        self.check_file(tester);
    }

    /// What the book makes of a report: a change, a removal or an entry, and the refusal, if it has one. A file without room is not
    /// the book's affair.
    fn feed_report(&mut self, report: &Report) -> u32 {
        let Report { number, ra, dec, owner, removed } = *report;
        match self.book.get_mut(&number) {
            Some(star) if ![0, star.owner].contains(&owner) => return 13,
            Some(_) if removed != 0 => drop(self.book.remove(&number)),
            Some(star) => star.word = pack(ra, dec),
            None if removed != 0 => {}
            None => drop(self.book.insert(number, Star { number, word: pack(ra, dec), owner })),
        }
        0
    }

    /// "the bits set are exactly those of the waiting reports"
    fn check_tray(&self, tester: &mut Tester) {
        let tray = &self.lent.tray;
        let filter = filter_of(self.parameters.multiplier, tray.waiting());
        tester.expect(tray.filter == filter, "the filter is not that of the waiting reports");
        let zeros = tray.reports[tray.count as usize..].iter().all(|report| *report == Report::default());
        tester.expect(zeros, "the places behind the count are not zeros");
        compare_bits(tester, &tray.filter);
    }
}

/// Histories of a file with a tray that begins with zeros.
pub fn histories_with_trays(tester: &mut Tester) {
    let parameters = small_parameters(&mut tester.random);
    let mut history = History::new(tester, parameters);
    for _ in 0..80 {
        history.tray_step(tester);
    }
}

/// The same until 256 reports wait and more are refused.
pub fn full_trays(tester: &mut Tester) {
    let parameters = small_parameters(&mut tester.random);
    let mut history = History::new(tester, parameters);
    for _ in 0..2 {
        for _ in 0..PLACES + 3 {
            history.add_report(tester);
        }
        for _ in 0..4 {
            history.tray_step(tester);
        }
        history.file_reports(tester);
        history.check_tray(tester);
    }
}

/// Any reports and any filter beside a sound, unsound or clean file, some with wrong lengths or values: what one call leaves is lent to
/// the next.
pub fn any_trays(tester: &mut Tester) {
    let parameters = small_parameters(&mut tester.random);
    let growth = random_growth(&mut tester.random, &parameters);
    let mut lent = match tester.random.below(3) {
        0 => sound_file(&mut tester.random, &parameters, &growth),
        _ => clean_file(&mut tester.random, &parameters, &growth, 100),
    };
    if tester.random.once_in(3) {
        let bit = tester.random.below(bits(&lent) as u64) as usize;
        flip(&mut lent, bit);
    }
    random_tray(&mut tester.random, &mut lent);
    for _ in 0..6 {
        let record = random_record(&mut tester.random, &parameters, growth);
        let report = random_report(&mut tester.random, &lent);
        let waiting = lent.tray.waiting();
        let number = if waiting.is_empty() { report.number } else { tester.random.pick(waiting).number };
        let number = tester.random.pick(&[number, report.number]);
        let kind = tray_kind(tester);
        let call = match kind {
            Kind::Report => adding(parameters, record, report),
            _ => Call { number, ..Call::new(kind, parameters, record) },
        };
        random_pool(&mut tester.random, &mut lent);
        if tester.random.once_in(4) {
            tester.deviating_call(call, lent.clone());
        }
        lent = tester.compare(&call, &lent).1;
    }
    let mut filter = lent.tray.filter;
    filter.truncate(tester.random.pick(&[0, 31, 32, 32, 32]));
    compare_bits(tester, &filter);
    filter.push(0);
    compare_bits(tester, &filter);
}

/// Filings of 256 reports into large files.
pub fn large_filings(tester: &mut Tester) {
    let list = tester.random.pick(&LARGE);
    let parameters = Parameters::new(list).under(random_multiplier(&mut tester.random));
    let growth = random_growth(&mut tester.random, &parameters);
    let percent = tester.random.pick(&[60, 90]);
    let mut lent = clean_file(&mut tester.random, &parameters, &growth, percent);
    for place in 0..PLACES {
        // For the institute, so that no report is another's.
        let report = Report { owner: 0, ..random_report(&mut tester.random, &lent).stored() };
        lent.tray.reports[place] = report;
    }
    lent.tray.count = PLACES as u32;
    random_pool(&mut tester.random, &mut lent);
    tester.compare(&Call::new(Kind::Filing, parameters, Record::closed(growth)), &lent);
}
