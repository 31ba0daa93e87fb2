//! Files carried to the other multiplier.

use crate::history::History;
use crate::tester::Tester;
use interface::LIBRARY;
use model::files::*;
use model::placement::{lay_out, unpack, Star};
use model::{Buffers, Call, Kind, Outcome, Parameters, Record};

/// A carrying to a file of other parameters, with anything in its buffers; the buffers lent have the file to be carried.
pub fn carrying(tester: &mut Tester, call: &Call, new: Parameters, lent: &Buffers) -> (Call, Buffers) {
    let growth = random_growth(&mut tester.random, &new);
    let call = Call { kind: Kind::Carry, new_parameters: new, new_record: Record::closed(growth), ..*call };
    let mut lent = Buffers { file: lent.file.clone(), ..Buffers::zeros(&new) };
    random_second(&mut tester.random, &mut lent);
    random_pool(&mut tester.random, &mut lent);
    (call, lent)
}

/// Carries back: the new file becomes the old one, under the old one's parameters and growth state.
pub fn carry_back(tester: &mut Tester, call: &Call, carried: &Buffers) -> (Outcome, Buffers) {
    let mut lent = Buffers { file: carried.second.clone(), ..Buffers::zeros(&call.parameters) };
    random_second(&mut tester.random, &mut lent);
    let (parameters, record) = (call.new_parameters, call.new_record);
    let (new_parameters, new_record) = (call.parameters, Record::closed(call.record.growth));
    tester.compare(&Call { parameters, record, new_parameters, new_record, ..*call }, &lent)
}

/// The file that the library's entries leave, in any order; none if one is refused.
fn entered(tester: &mut Tester, parameters: Parameters, record: Record, mut stars: Vec<Star>) -> Option<Buffers> {
    tester.random.shuffle(&mut stars);
    let mut lent = lay_out(&parameters, &record.growth, Vec::new())?;
    for Star { number, word, owner } in stars {
        let (ra, dec) = unpack(word);
        let call = Call { caller: owner, number, ra, dec, ..Call::new(Kind::Enter, parameters, record) };
        if (LIBRARY.run)(&call, &mut lent).refusal != 0 {
            return None;
        }
    }
    Some(lent)
}

fn carry_file(tester: &mut Tester, parameters: Parameters, new: Parameters, lent: &Buffers, record: Record) {
    let new = if tester.random.once_in(20) { new } else { new.under(parameters.carried().multiplier) };
    let (call, lent) = carrying(tester, &Call::new(Kind::Carry, parameters, record), new, lent);
    let (outcome, after) = tester.compare(&call, &lent);
    tester.expect(after.file == lent.file, "a carrying writes the old file");
    if outcome.refusal != 0 && outcome.refusal != 8 {
        return;
    }
    let expected = entered(tester, call.new_parameters, call.new_record, lent.file.stars().collect());
    tester.expect(outcome.refusal == 0 || expected.is_none(), "a carrying is refused where entries are not");
    if outcome.refusal == 8 {
        return;
    }
    let as_entered = expected.is_some_and(|expected| expected.file == after.second);
    tester.expect(as_entered, "a carrying differs from entries");
    let (checked, _) = tester
        .compare(&Call { kind: Kind::Check, ..call }, &Buffers { second: lent.second, ..pool_of(&call, &lent.file) });
    let (back, restored) = carry_back(tester, &call, &after);
    let same = back.refusal == 0 && restored.second == lent.file;
    tester.expect(checked.refusal != 0 || same, "carrying there and back does not restore a clean file");
}

/// A file with a pool of its own size.
fn pool_of(call: &Call, file: &model::Pages) -> Buffers {
    Buffers { file: file.clone(), ..Buffers::zeros(&call.parameters) }
}

pub fn carryings(tester: &mut Tester) {
    let [parameters, other] = [(); 2].map(|_| small_parameters(&mut tester.random));
    let growth = random_growth(&mut tester.random, &parameters);
    let mut lent = match tester.random.below(3) {
        0 => sound_file(&mut tester.random, &parameters, &growth),
        _ => clean_file(&mut tester.random, &parameters, &growth, 100),
    };
    if tester.random.once_in(6) {
        let bit = tester.random.below(bits(&lent) as u64) as usize;
        flip(&mut lent, bit);
    }
    let record = random_record(&mut tester.random, &parameters, growth);
    carry_file(tester, parameters, other, &lent, record);
}

pub fn large_carryings(tester: &mut Tester) {
    let [list, other] = [(); 2].map(|_| tester.random.pick(&LARGE));
    let parameters = Parameters::new(list).under(random_multiplier(&mut tester.random));
    let growth = random_growth(&mut tester.random, &parameters);
    let lent = clean_file(&mut tester.random, &parameters, &growth, 50);
    let new = Parameters::new(tester.random.pick(&[list, other])).under(parameters.carried().multiplier);
    let (call, lent) = carrying(tester, &Call::new(Kind::Carry, parameters, Record::closed(growth)), new, &lent);
    let (outcome, after) = tester.compare(&call, &lent);
    if outcome.refusal == 0 {
        let (back, restored) = carry_back(tester, &call, &after);
        let same = back.refusal == 0 && restored.second == lent.file;
        tester.expect(same, "carrying there and back does not restore a clean file");
    }
}

/// Histories of files that are carried, and into which others are.
pub fn histories_with_carryings(tester: &mut Tester) {
    let parameters = small_parameters(&mut tester.random);
    let mut history = History::new(tester, parameters);
    for _ in 0..40 {
        match tester.random.below(8) {
            0 => history.carry_from(tester),
            1 => history.carry_into(tester),
            _ => history.step(tester),
        }
    }
}
