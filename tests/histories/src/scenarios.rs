//! What is tested, each by random numbers of its own.

use crate::history::{finishes, History};
use crate::tester::{stored, stores, Tester};
use interface::{LIBRARY, RECORD_KINDS};
use model::files::*;
use model::hashing::home;
use model::placement::Star;
use model::{Buffers, Call, Growth, Kind, Parameters, Record};

/// Every file of two pages with a place each and a few values for each item, under every call.
pub fn tiny_files(tester: &mut Tester) {
    let bits = 1 + tester.random.below(3) as u32;
    let parameters = Parameters::new([1, 1, 1, 1, bits, 50, 2]).under(random_multiplier(&mut tester.random));
    let top = parameters.top() as u8;
    let separators = [0, 1, top / 2 + 1, top, top + 1];
    let first = 1 + tester.random.below(1_000) as u32;
    let numbers = [0, first, first + 1 + tester.random.below(1_000) as u32, 2_147_483_647];
    let words = [0, 4_618_967_296, u64::MAX];
    let sets = separators.len() * numbers.len() * words.len();
    for choice in 0..sets * sets {
        let page = |choice: usize| (separators[choice % 5], numbers[choice / 5 % 4], words[choice / 20]);
        let (lower, upper) = (page(choice % sets), page(choice / sets));
        let mut lent = Buffers::zeros(&parameters);
        (lent.file.separators, lent.file.numbers) = (vec![lower.0, upper.0], vec![lower.1, upper.1]);
        (lent.file.words, lent.pool_words) = (vec![lower.2, upper.2], vec![7, 7]);
        for item in 0..2 {
            // An empty place seldom has an owner, as that hides all else.
            if lent.file.numbers[item] != 0 || tester.random.once_in(8) {
                lent.file.owners[item] = random_caller(&mut tester.random);
            }
        }
        let growth = Growth { expansions: tester.random.below(2) as u32, expanded: 0 };
        let record = random_record(&mut tester.random, &parameters, growth);
        random_second(&mut tester.random, &mut lent);
        tester.every_call(parameters, record, &lent, &numbers[1..3]);
    }
}

/// A history for each of the parameters' edges.
pub fn edge_histories(tester: &mut Tester) {
    let multiplier = random_multiplier(&mut tester.random);
    for parameters in edge_parameters() {
        let mut history = History::new(tester, parameters.under(multiplier));
        for _ in 0..40 {
            history.step(tester);
        }
    }
}

pub fn small_history(tester: &mut Tester) {
    let parameters = small_parameters(&mut tester.random);
    let mut history = History::new(tester, parameters);
    for _ in 0..150 {
        history.step(tester);
    }
}

/// Through every size of a file up to M and back.
pub fn every_size(tester: &mut Tester) {
    let parameters = small_parameters(&mut tester.random);
    let calls = tester.random.below(parameters.places.into()) + 1;
    through_sizes(tester, parameters, calls);
}

/// The same for each of the parameters' edges.
pub fn every_edge_size(tester: &mut Tester) {
    let multiplier = random_multiplier(&mut tester.random);
    for parameters in edge_parameters() {
        through_sizes(tester, parameters.under(multiplier), 1);
    }
}

/// The same from one page to 1,024.
pub fn all_sizes(tester: &mut Tester) {
    let multiplier = random_multiplier(&mut tester.random);
    through_sizes(tester, Parameters::new([2, 1, 1, 1, 8, 80, 1_024]).under(multiplier), 1);
}

/// At each size some entries on the way up, some removals on the way down.
fn through_sizes(tester: &mut Tester, parameters: Parameters, calls: u64) {
    let mut history = History::new(tester, parameters);
    let up = (Kind::Grow, &Kind::ENTRIES[..], 8);
    let down = (Kind::Shrink, &[Kind::Remove][..], 9);
    for (kind, at_each_size, end) in [up, down] {
        for _ in parameters.width * parameters.groups..parameters.pages {
            for _ in 0..calls {
                let number = tester.random.pick(&history.numbers);
                let at_this_size = tester.random.pick(at_each_size);
                history.call(tester, at_this_size, number);
            }
            // Where the stars do not fit, with fewer of them; a call that fails may leave no way on.
            let resized = |history: &mut History, tester: &mut Tester| match kind {
                Kind::Grow => history.grow(tester),
                _ => history.call(tester, kind, 0),
            };
            while resized(&mut history, tester).refusal != 0 {
                if !tester.failures.is_empty() {
                    return;
                }
                let (&number, _) = history.book.first_key_value().expect("no stars always fit");
                history.call(tester, Kind::Remove, number);
            }
        }
        let refusal = history.call(tester, kind, 0).refusal;
        tester.expect(refusal == end, "a file has another number of sizes");
    }
}

/// Growths in steps alone, with entries between them.
pub fn growths_in_steps(tester: &mut Tester) {
    let parameters = small_parameters(&mut tester.random);
    let mut history = History::new(tester, parameters);
    for _ in 0..4 {
        for _ in 0..tester.random.below(u64::from(parameters.places) * 4) {
            let number = tester.random.pick(&history.numbers);
            let entry = random_entry(&mut tester.random);
            history.call(tester, entry, number);
        }
        history.grow_in_steps(tester);
    }
}

/// A growth in steps of a file whose pages are sound under separators that the rule need not give: after every step the finished
/// pages and an empty rest, and after the last the growth at once.
pub fn sound_growths_in_steps(tester: &mut Tester) {
    let parameters = small_parameters(&mut tester.random);
    let growth = random_growth(&mut tester.random, &parameters);
    let mut lent = sound_file(&mut tester.random, &parameters, &growth);
    random_second(&mut tester.random, &mut lent);
    random_pool(&mut tester.random, &mut lent);
    let grow = Call::new(Kind::Grow, parameters, Record::closed(growth));
    let (grown, finished) = tester.compare(&grow, &lent);
    let (mut last, mut after) = tester.compare(&Call { kind: Kind::Open, ..grow }, &lent);
    tester.expect(last.refusal == grown.refusal, "opening is refused otherwise than growing");
    if grown.refusal != 0 {
        return;
    }
    for steps in 0..parameters.pages {
        tester.expect(
            after.second == second_after(&parameters, &finished.file, steps),
            "other pages are done than the first",
        );
        tester.expect(last.record == Record { growth, open: true, steps }, "another record than after so many steps");
        lent.second = after.second;
        random_pool(&mut tester.random, &mut lent);
        (last, after) = tester.compare(&Call { kind: Kind::Step, record: last.record, ..grow }, &lent);
    }
    tester.expect(after.second == finished.file, "the last step leaves another file than the growth at once");
    tester.expect(
        (last.page, last.record) == (grown.page, grown.record),
        "the last step answers otherwise than the growth at once",
    );
}

/// The first, a middle and the last steps of a growth of a large file.
pub fn large_steps(tester: &mut Tester) {
    let list = tester.random.pick(&LARGE);
    let parameters = Parameters::new(list).under(random_multiplier(&mut tester.random));
    // Often the last growth that there can be.
    let growths = u64::from(parameters.pages - parameters.width * parameters.groups).saturating_sub(1);
    let fewer = tester.random.below(growths + 1);
    let growth = growth_after(&parameters, tester.random.pick(&[fewer, growths, growths]));
    let percent = tester.random.pick(&[60, 90]);
    let mut lent = clean_file(&mut tester.random, &parameters, &growth, percent);
    random_second(&mut tester.random, &mut lent);
    random_pool(&mut tester.random, &mut lent);
    let record = Record::closed(growth);
    let grow = Call::new(Kind::Grow, parameters, record);
    let (outcome, grown) = tester.compare(&grow, &lent);
    let (opened, _) = tester.compare(&Call { kind: Kind::Open, ..grow }, &lent);
    tester.expect(opened.refusal == outcome.refusal, "opening is refused otherwise than growing");
    if outcome.refusal != 0 {
        return;
    }
    for steps in [0, parameters.pages / 2, parameters.pages - 2, parameters.pages - 1] {
        lent.second = second_after(&parameters, &grown.file, steps);
        let record = Record { growth, open: true, steps };
        let (_, after) = tester.compare(&Call { kind: Kind::Step, record, ..grow }, &lent);
        let expected = second_after(&parameters, &grown.file, steps + 1);
        tester.expect(after.second == expected, "a step leaves another page than the growth at once");
    }
}

/// A history of few calls on a large file that is already filled.
pub fn large_history(tester: &mut Tester) {
    let list = tester.random.pick(&LARGE);
    large_history_of(tester, list);
}

pub fn largest_history(tester: &mut Tester) {
    large_history_of(tester, LARGE[0]);
}

fn large_history_of(tester: &mut Tester, list: [u32; 7]) {
    let parameters = Parameters::new(list).under(random_multiplier(&mut tester.random));
    let growth = random_growth(&mut tester.random, &parameters);
    let percent = tester.random.pick(&[20, 60, 80, 90]);
    let lent = clean_file(&mut tester.random, &parameters, &growth, percent);
    let mut history = History::from(tester, parameters, growth, lent);
    for _ in 0..12 {
        history.step(tester);
    }
}

/// Growths, shrinks, openings and steps of a clean, sound or damaged file, each under the record that the one before left, and beside it
/// with wrong values or lengths.
pub fn growth_records(tester: &mut Tester) {
    let parameters = small_parameters(&mut tester.random);
    let growth = random_growth(&mut tester.random, &parameters);
    let percent = tester.random.pick(&[20, 60, 90, 120]);
    let mut lent = match tester.random.below(3) {
        0 => sound_file(&mut tester.random, &parameters, &growth),
        _ => clean_file(&mut tester.random, &parameters, &growth, percent),
    };
    if tester.random.once_in(4) {
        let bit = tester.random.below(bits(&lent) as u64) as usize;
        flip(&mut lent, bit);
    }
    random_second(&mut tester.random, &mut lent);
    let mut record = random_record(&mut tester.random, &parameters, growth);
    for _ in 0..12 {
        random_pool(&mut tester.random, &mut lent);
        let any = tester.random.pick(&RECORD_KINDS);
        // While a growth is open all but a step are refused.
        let kind = if record.open { tester.random.pick(&[Kind::Step, Kind::Step, Kind::Step, any]) } else { any };
        let call = Call::new(kind, parameters, record);
        tester.deviating_call(call, lent.clone());
        let (outcome, after) = tester.compare(&call, &lent);
        (lent, record) = (after, outcome.record);
        if finishes(&call, &outcome) {
            std::mem::swap(&mut lent.file, &mut lent.second);
        }
        // Most open growths would take more steps than there are calls.
        if record.open && tester.random.once_in(6) {
            let last = Record { steps: parameters.pages - 1, ..record };
            record = tester.random.pick(&[last, Record::closed(record.growth)]);
        }
    }
}

/// Parameters, growth state and a file with some stars, for damage.
fn small_file(tester: &mut Tester) -> (Parameters, Growth, Buffers) {
    let list = [
        [2, 2, 2, 1, 8, 80, 7],
        [1, 1, 1, 1, 2, 50, 3],
        [3, 1, 2, 1, 3, 60, 5],
        [1, 3, 1, 2, 8, 60, 6],
        [4, 1, 1, 1, 8, 80, 2],
    ];
    let list = tester.random.pick(&list);
    let parameters = Parameters::new(list).under(random_multiplier(&mut tester.random));
    let growth = random_growth(&mut tester.random, &parameters);
    let lent = match tester.random.below(3) {
        0 => sound_file(&mut tester.random, &parameters, &growth),
        _ => clean_file(&mut tester.random, &parameters, &growth, 110),
    };
    (parameters, growth, lent)
}

/// Some held numbers and some others.
fn some_numbers(tester: &mut Tester, lent: &Buffers, count: usize) -> Vec<u32> {
    let mut numbers: Vec<u32> = lent.file.numbers.iter().copied().filter(|&number| number != 0).collect();
    tester.random.shuffle(&mut numbers);
    numbers.truncate(count);
    numbers.extend((0..count).map(|_| tester.random.star_number()));
    numbers
}

/// Each bit of a small file changed, one at a time, then every call.
pub fn single_bit_damage(tester: &mut Tester) {
    let (parameters, growth, lent) = small_file(tester);
    for bit in 0..bits(&lent) {
        let mut damaged = lent.clone();
        random_pool(&mut tester.random, &mut damaged);
        flip(&mut damaged, bit);
        let numbers = some_numbers(tester, &lent, 2);
        let record = random_record(&mut tester.random, &parameters, growth);
        tester.every_call(parameters, record, &damaged, &numbers);
    }
}

/// Each bit of the parameters and of the growth record changed, one at a time, then every call.
pub fn single_bit_arguments(tester: &mut Tester) {
    let (parameters, growth, lent) = small_file(tester);
    let numbers = some_numbers(tester, &lent, 1);
    let record = random_record(&mut tester.random, &parameters, growth);
    for bit in 0..8 * 32 {
        let mut list = parameters.list();
        list[bit / 32] ^= 1 << (bit % 32);
        tester.every_call(Parameters::from_list(list), record, &lent, &numbers);
    }
    tester.every_call(parameters, Record { open: !record.open, ..record }, &lent, &numbers);
    for bit in (0..32).map(|bit| 1 << bit) {
        let mut wrong = [record; 3];
        wrong[0].growth.expansions ^= bit;
        wrong[1].growth.expanded ^= bit;
        wrong[2].steps ^= bit;
        for record in wrong {
            tester.every_call(parameters, record, &lent, &numbers);
        }
    }
}

/// Random damage of a small file of any parameters, which may be called under the wrong multiplier, then calls that go on
/// with what the one before left.
pub fn damaged_session(tester: &mut Tester) {
    let mut parameters = small_parameters(&mut tester.random);
    let growth = random_growth(&mut tester.random, &parameters);
    let mut lent = clean_file(&mut tester.random, &parameters, &growth, 90);
    for _ in 0..1 + tester.random.below(3) {
        let bit = tester.random.below(bits(&lent) as u64) as usize;
        flip(&mut lent, bit);
    }
    if tester.random.once_in(8) {
        parameters.multiplier = random_multiplier(&mut tester.random);
    }
    session(tester, parameters, growth, lent, 20);
}

/// Calls on a file whose pages are all sound under separators that the rule need not give.
pub fn sound_session(tester: &mut Tester) {
    let parameters = small_parameters(&mut tester.random);
    let growth = random_growth(&mut tester.random, &parameters);
    let lent = sound_file(&mut tester.random, &parameters, &growth);
    session(tester, parameters, growth, lent, 20);
}

fn session(tester: &mut Tester, parameters: Parameters, growth: Growth, mut lent: Buffers, calls: u32) {
    let mut record = random_record(&mut tester.random, &parameters, growth);
    random_second(&mut tester.random, &mut lent);
    for _ in 0..calls {
        let kind = tester.random.pick(&LIBRARY.kinds()[1..]);
        lend(&mut tester.random, kind, &mut lent);
        // While a growth is open most calls are refused.
        if record.open && tester.random.once_in(4) {
            record = Record::closed(record.growth);
        }
        let numbers = some_numbers(tester, &lent, 1);
        let number = tester.random.pick(&numbers);
        let resent = stored(&lent, number).filter(|_| tester.random.once_in(2));
        let (ra, dec) = resent.unwrap_or_else(|| tester.random.position());
        let caller = random_caller(&mut tester.random);
        let stores = random_stores(&mut tester.random);
        let removed = tester.random.pick(&[0, 0, 1, 2]);
        let call = Call { caller, number, ra, dec, removed, stores, ..Call::new(kind, parameters, record) };
        let (outcome, after) = tester.compare(&call, &lent);
        (lent, record) = (after, outcome.record);
        if finishes(&call, &outcome) {
            std::mem::swap(&mut lent.file, &mut lent.second);
        }
    }
}

/// Every entry, change and removal of a clean file's stars and of some others, stopped at every point, then mended.
pub fn power_cuts(tester: &mut Tester) {
    let parameters = small_parameters(&mut tester.random);
    let growth = random_growth(&mut tester.random, &parameters);
    let percent = tester.random.pick(&[30, 80, 100, 120]);
    let lent = clean_file(&mut tester.random, &parameters, &growth, percent);
    let count = lent.file.stars().count().min(40);
    let numbers = some_numbers(tester, &lent, count + 4);
    cuts(tester, parameters, growth, &lent, &numbers);
}

/// The same for a few stars of a large file.
pub fn large_power_cuts(tester: &mut Tester) {
    let list = tester.random.pick(&LARGE);
    let parameters = Parameters::new(list).under(random_multiplier(&mut tester.random));
    let growth = random_growth(&mut tester.random, &parameters);
    let percent = tester.random.pick(&[80, 95]);
    let lent = clean_file(&mut tester.random, &parameters, &growth, percent);
    let numbers = some_numbers(tester, &lent, 1);
    cuts(tester, parameters, growth, &lent, &numbers);
}

/// The same through many full pages.
pub fn long_power_cuts(tester: &mut Tester) {
    let places = tester.random.pick(&[1, 2, 5]);
    let pages = tester.random.pick(&[13, 40]);
    let parameters = Parameters::new([places, 4, 1, 3, 8, 99, pages]).under(random_multiplier(&mut tester.random));
    let growth = growth_after(&parameters, u64::from(pages - 4));
    let lent = full_file(&mut tester.random, &parameters, &growth, 2);
    let mut numbers = some_numbers(tester, &lent, 2);
    numbers.push((1..).find(|&number| home(&parameters, &growth, number.into()) == 0).unwrap());
    cuts(tester, parameters, growth, &lent, &numbers);
}

fn cuts(tester: &mut Tester, parameters: Parameters, growth: Growth, lent: &Buffers, numbers: &[u32]) {
    let record = Record::closed(growth);
    for kind in [Kind::EnterStopped, Kind::ChangeStopped, Kind::RemoveStopped] {
        for &number in numbers {
            let resent = stored(lent, number).filter(|_| tester.random.once_in(4));
            let (ra, dec) = resent.unwrap_or_else(|| tester.random.position());
            let caller = random_caller(&mut tester.random);
            let call = Call { caller, number, ra, dec, ..Call::new(kind, parameters, record) };
            for stores in (0..=stores(&call, lent) + 1).chain([u32::MAX]) {
                tester.cut(&Call { stores, ..call }, lent);
            }
        }
    }
}

/// Mendings of pages with stars twice, out of order and behind empty places, now and then with single wrong bits.
pub fn mendings(tester: &mut Tester) {
    let parameters = small_parameters(&mut tester.random);
    let growth = random_growth(&mut tester.random, &parameters);
    let mut lent = clean_file(&mut tester.random, &parameters, &growth, 90);
    scatter(&mut tester.random, &parameters, &mut lent);
    for _ in 0..tester.random.pick(&[0, 0, 0, 1, 2]) {
        let bit = tester.random.below(bits(&lent) as u64) as usize;
        flip(&mut lent, bit);
    }
    random_pool(&mut tester.random, &mut lent);
    // Under another growth state the stars may not fit.
    let growth = if tester.random.once_in(3) { random_growth(&mut tester.random, &parameters) } else { growth };
    let mend = Call::new(Kind::Mend, parameters, random_record(&mut tester.random, &parameters, growth));
    let (mended, after) = tester.compare(&mend, &lent);
    if mended.refusal == 0 {
        let (again, same) = tester.compare(&mend, &after);
        tester.expect(again.refusal == 0 && same == after, "mending a clean file alters it");
        let (checked, _) = tester.compare(&Call { kind: Kind::Check, ..mend }, &after);
        tester.expect(checked.refusal == 0, "a mended file is not clean");
    }
}

/// Mendings of large files of few stars, each on many places, the numbers falling.
pub fn large_mendings(tester: &mut Tester) {
    let list = tester.random.pick(&LARGE);
    let parameters = Parameters::new(list).under(random_multiplier(&mut tester.random));
    let growth = random_growth(&mut tester.random, &parameters);
    let mut lent = Buffers::zeros(&parameters);
    let mut stars: Vec<Star> = (0..tester.random.pick(&[1, 2, 60])).map(|_| random_star(&mut tester.random)).collect();
    stars.sort();
    for item in 0..parameters.items() {
        let star = stars[stars.len() - 1 - item * stars.len() / parameters.items()];
        (lent.file.numbers[item], lent.file.words[item], lent.file.owners[item]) = (star.number, star.word, star.owner);
    }
    random_pool(&mut tester.random, &mut lent);
    tester.compare(&Call::new(Kind::Mend, parameters, Record::closed(growth)), &lent);
}

/// Entries that go through many full pages, with and without room at the end.
pub fn full_file_entries(tester: &mut Tester) {
    let places = tester.random.pick(&[1, 2, 5]);
    let pages = tester.random.pick(&[4, 13, 40]);
    let bits = tester.random.pick(&[4, 8, 8]);
    full_entries(tester, Parameters::new([places, 4, 1, 3, bits, 99, pages]));
}

/// The same through about 1,000 pages.
pub fn long_cascade(tester: &mut Tester) {
    full_entries(tester, Parameters::new([4, 8, 2, 5, 8, 80, 1_024]));
}

fn full_entries(tester: &mut Tester, parameters: Parameters) {
    let parameters = parameters.under(random_multiplier(&mut tester.random));
    let growths = parameters.pages - parameters.width * parameters.groups;
    let growth = growth_after(&parameters, growths.into());
    let with_room = tester.random.below(3) as usize;
    let lent = full_file(&mut tester.random, &parameters, &growth, with_room);
    let mut history = History::from(tester, parameters, growth, lent);
    for entered in 0..4 {
        let wanted = tester.random.pick(&[0, 0, 1, u64::from(parameters.pages) / 2]);
        let number = loop {
            let number = tester.random.star_number();
            if home(&parameters, &growth, number.into()) == wanted {
                break number;
            }
        };
        let entry = random_entry(&mut tester.random);
        history.call(tester, entry, number);
        if entered % 2 == 1 {
            let number = tester.random.pick(&history.numbers);
            history.call(tester, Kind::Remove, number);
        }
    }
}

/// Two histories that end in the same stars, positions, owners and growth state leave the same bytes.
pub fn same_stars(tester: &mut Tester) {
    let parameters = small_parameters(&mut tester.random);
    let mut first = History::new(tester, parameters);
    for _ in 0..80 {
        first.step(tester);
    }
    let mut second = History::new(tester, parameters);
    // Entries and growths may have no room for a while, so each is tried again after the others.
    for _ in 0..10 {
        let mut missing: Vec<Star> =
            first.book.values().copied().filter(|star| !second.book.contains_key(&star.number)).collect();
        tester.random.shuffle(&mut missing);
        for Star { number, owner, .. } in missing {
            let passing = random_star(&mut tester.random);
            let stays = first.book.contains_key(&passing.number);
            let [entry, other] = [(); 2].map(|_| random_entry(&mut tester.random));
            if !stays && second.call_as(tester, passing.owner, entry, passing.number).refusal == 0 {
                second.call_as(tester, owner, other, number);
                second.call_as(tester, passing.owner, Kind::Remove, passing.number);
            }
            second.call_as(tester, owner, entry, number);
            if tester.random.once_in(3) {
                second.grow(tester);
            }
        }
        let wanted = first.record.growth;
        while second.record.growth != wanted && second.towards(tester, wanted).refusal == 0 {}
    }
    for star in first.book.values() {
        second.call_with(tester, Kind::Change, *star);
    }
    let ended_alike = (&first.book, first.record.growth) == (&second.book, second.record.growth);
    if ended_alike {
        tester.alike += 1;
        tester.expect(first.same_file(&second.lent), "histories with the same stars leave different files");
    }
}
