//! Points of the documents that the model and every other implementation must meet. Each panics where one fails.

use crate::files::second_after;
use crate::fits;
use crate::hashing::{MODULUS, MULTIPLIERS};
use crate::placement::{lay_out, pack, Star};
use crate::session::Session;
use crate::{Buffers, Call, Growth, Implementation, Kind, Outcome, Pages, Parameters, Record};

/// One page at home, one above it, a place in each: star 32 has signatures 223 and 126, star 170 has 149 and 215.
const TWO_PAGES: [u32; 7] = [1, 1, 1, 1, 8, 50, 2];

fn answers(outcome: Outcome) -> (u32, u32) {
    (outcome.refusal, outcome.page)
}

fn spot(outcome: Outcome) -> (u32, u32, u32) {
    (outcome.refusal, outcome.page, outcome.place)
}

/// The published values of the generators; each table of 2,049, every entry from the one before.
pub fn generator(x: fn(u32, u64, u64) -> u64) {
    let powers = |multiplier| [x(multiplier, 2, 1), x(multiplier, 3, 1), x(multiplier, 1, 2_147_483_646)];
    assert_eq!(powers(16_807), [282_475_249, 1_622_650_073, 2_147_466_840]);
    assert_eq!(powers(48_271), [182_605_794, 1_291_394_886, 2_147_435_376]);
    for (multiplier, published) in [(16_807, 1_043_618_065), (48_271, 399_268_537)] {
        let x = |j, number| x(multiplier, j, number);
        assert_eq!((0..10_000).fold(1, |value, _| x(1, value)), published);
        assert_eq!(x(1, 1), u64::from(multiplier));
        for j in 2..=2_049 {
            assert_eq!(x(j, 1), x(j - 1, 1) * u64::from(multiplier) % MODULUS);
            assert_eq!(x(j, 2_147_483_646), MODULUS - x(j, 1));
        }
    }
}

/// The document's ranks; all ranks among some groups are different.
pub fn ranks(rank: fn(u64, u64, u64) -> u64) {
    assert_eq!([9, 8, 7, 1].map(|group| rank(3, 10, group)), [0, 4, 7, 9]);
    for groups in 1..=64 {
        for step in 1..=groups {
            let mut ranks: Vec<u64> = (0..groups).map(|group| rank(step, groups, group)).collect();
            ranks.sort();
            assert!(ranks.into_iter().eq(0..groups));
        }
    }
}

/// An empty file, whatever the buffers held; making one takes no pool.
pub fn empty_file(run: Implementation) {
    let mut session = Session::new(run, TWO_PAGES);
    let Buffers { file: Pages { separators, numbers, words, owners }, pool_owners, .. } = &mut session.lent;
    separators.fill(7);
    numbers.fill(7);
    words.fill(7);
    owners.fill(7);
    pool_owners.fill(7);
    assert_eq!(answers(session.call(Kind::Make, 0, 0, 0)), (0, 0));
    let zeros = Buffers::zeros(&session.parameters);
    let file = Pages { separators: vec![255; 2], ..zeros.file };
    assert_eq!(session.lent, Buffers { file, pool_owners: vec![7; 2], ..zeros });
}

/// The homes of stars 1 and 2, seen by look-ups that find none.
pub fn homes(run: Implementation) {
    let mut session = Session::new(run, [2, 2, 2, 1, 8, 80, 8]);
    assert_eq!((answers(session.look_up(1)), answers(session.look_up(2))), ((0, 3), (0, 2)));
    assert_eq!(answers(session.grow()), (0, 4));
    assert_eq!(answers(session.look_up(1)), (0, 4));
    assert_eq!(answers(session.grow()), (0, 5));
    assert_eq!(answers(session.look_up(2)), (0, 5));
}

/// The limits of positions and of star numbers.
pub fn value_limits(run: Implementation) {
    for entry in Kind::ENTRIES {
        let mut session = Session::new(run, [4, 2, 2, 1, 8, 80, 8]);
        for kind in [entry, Kind::Change] {
            let mut refusal = |number, ra, dec| session.call(kind, number, ra, dec).refusal;
            assert_eq!(refusal(1, 0, -324_000_000), 0);
            assert_eq!(refusal(2, 0, 324_000_000), 0);
            assert_eq!(refusal(2_147_483_646, 1_295_999_999, 0), 0);
            assert_eq!(refusal(3, 0, -324_000_001), 4);
            assert_eq!(refusal(3, 0, 324_000_001), 4);
            assert_eq!(refusal(3, 0, i32::MIN), 4);
            assert_eq!(refusal(3, 1_296_000_000, 0), 4);
            assert_eq!(refusal(3, u32::MAX, 0), 4);
            assert_eq!(refusal(0, u32::MAX, 0), 3);
        }
        for kind in run.kinds().into_iter().filter(|kind| kind.takes_number()) {
            for number in [0, 2_147_483_647, u32::MAX] {
                assert_eq!(session.call(kind, number, 0, 0).refusal, 3);
            }
        }
        let found = session.look_up(2_147_483_646);
        assert_eq!((found.found, found.ra, found.dec), (1, 1_295_999_999, 0));
    }
}

/// The limits of document 01's seven parameters, for every call.
pub fn parameter_limits(run: Implementation) {
    let limits = [(0, 1, 32), (1, 1, 256), (2, 1, 4), (3, 1, 4), (4, 1, 8), (5, 1, 99), (6, 8, 1_024)];
    for kind in run.kinds() {
        for (index, least, greatest) in limits {
            for (value, refused) in
                [(least - 1, true), (least, false), (greatest, false), (greatest + 1, true), (u32::MAX, true)]
            {
                let mut list = [2, 4, 2, 2, 8, 80, 1_024];
                list[index] = value;
                // A smaller N needs a smaller step.
                if index == 1 {
                    list[3] = 1;
                }
                let refusal = on_empty_file(run, kind, list, Growth::default());
                assert_eq!(refusal == 1, refused, "{} {list:?}", kind.name());
            }
        }
    }
}

/// Homes and signatures follow the file's multiplier.
pub fn multipliers(run: Implementation) {
    for (multiplier, page, separator) in [(16_807, 1, 223), (48_271, 4, 254)] {
        let mut session = Session::with(run, Parameters::new([2, 2, 2, 1, 8, 80, 8]).under(multiplier));
        assert_eq!((answers(session.look_up(3)), answers(session.grow())), ((0, 1), (0, 4)));
        assert_eq!(answers(session.look_up(3)), (0, page));
        let mut session = Session::with(run, Parameters::new(TWO_PAGES).under(multiplier));
        assert_eq!((answers(session.enter(32)), answers(session.enter(170))), ((0, 0), (0, 0)));
        assert_eq!(
            (&session.lent.file.separators[..], &session.lent.file.numbers[..]),
            (&[separator, 255][..], &[170, 32][..])
        );
        assert_eq!(answers(session.check()), (0, 0));
        let [first, second] = MULTIPLIERS;
        session.parameters.multiplier = first + second - multiplier;
        assert_eq!(session.check().refusal, 5);
    }
}

/// A multiplier that is neither is 1 in every call, also in those that never hash, and before every other refusal.
pub fn multiplier_limits(run: Implementation) {
    let [first, second] = MULTIPLIERS;
    let near = [first - 1, first + 1, second - 1, second + 1, first + second, first * first, first | second];
    let far = [0, 1, 2_147_483_646, 2_147_483_647, first + 0x8000_0000, second + 0x0001_0000, u32::MAX];
    for kind in run.kinds() {
        for multiplier in near.into_iter().chain(far) {
            let mut session = Session::new(run, TWO_PAGES);
            session.parameters.multiplier = multiplier;
            session.lent.pool_words.fill(7);
            let before = session.clone();
            assert_eq!(answers(session.call(kind, 1, 0, 0)), (1, 0), "{} {multiplier}", kind.name());
            assert!(session.lent == before.lent && session.record == before.record);
            session.lent.file.words.pop();
            assert_eq!(answers(session.call(kind, 0, u32::MAX, 0)), (1, 0));
        }
        for multiplier in MULTIPLIERS {
            let mut session = Session::with(run, Parameters::new(TWO_PAGES).under(multiplier));
            assert_ne!(session.call(kind, 1, 0, 0).refusal, 1);
        }
    }
}

/// The refusal of a call on an empty file, whose buffers have the lengths that M and b ask if these are sensible.
fn on_empty_file(run: Implementation, kind: Kind, list: [u32; 7], growth: Growth) -> u32 {
    let mut sizes = Parameters::new(list);
    (sizes.places, sizes.pages) = (sizes.places.min(33), sizes.pages.min(1_025));
    let mut lent = Buffers::zeros(&sizes);
    lent.file.separators.fill(((1_u32 << list[4].min(8)) - 1) as u8);
    let (parameters, record) = (Parameters::new(list), Record::closed(growth));
    let mut session = Session { run, parameters, record, lent, caller: 0 };
    session.call(kind, 1, 0, 0).refusal
}

/// Growth states at and beyond the limits; e may be any number of 32 bits.
pub fn growth_limits(run: Implementation) {
    for kind in run.kinds().into_iter().filter(|&kind| kind != Kind::Make) {
        let refused = |list, expansions, expanded| on_empty_file(run, kind, list, Growth { expansions, expanded }) == 1;
        let (slow, fast) = ([1, 1, 4, 1, 8, 80, 1_024], [1, 256, 1, 256, 8, 80, 1_000]);
        assert!(!refused(slow, 32, 0) && refused(slow, 32, 1) && refused(slow, 33, 0));
        assert!(!refused(slow, 31, 127) && refused(slow, 31, 128));
        assert!(!refused(fast, 1, 488) && refused(fast, 1, 489) && refused(fast, 2, 0));
        assert!(!refused(fast, 0, 255) && refused(fast, 0, 256));
        for e in [39, 40, 43, 44, 63, 64, 127, 128, 255, 256, 1 << 16, u32::MAX - 1, u32::MAX] {
            assert!(refused(slow, e, 0) && refused(fast, e, 0));
        }
        assert!(refused(slow, 0, u32::MAX) && refused(slow, u32::MAX, u32::MAX));
    }
}

/// k = 1, b = 1: entering a second star of the same home, into a file that the check accepts, is always 8.
pub fn second_star_of_a_home(run: Implementation) {
    let files = [([1, 1, 1, 1, 1, 50, 3], 1), ([1, 2, 2, 1, 1, 50, 9], 3), ([1, 3, 1, 2, 1, 50, 8], 4)];
    for ((list, growths), multiplier) in
        files.into_iter().flat_map(|file| MULTIPLIERS.map(|multiplier| (file, multiplier)))
    {
        let mut session = Session::with(run, Parameters::new(list).under(multiplier));
        for _ in 0..growths {
            assert_eq!(session.grow().refusal, 0);
        }
        let mut homes = Vec::new();
        for number in 1..200 {
            let home = session.home(number);
            let refusals = [session.clone().cascade(number).refusal, session.enter(number).refusal];
            assert_eq!(refusals, if homes.contains(&home) { [8; 2] } else { [0; 2] });
            homes.push(home);
            assert_eq!(session.check().refusal, 0);
        }
    }
}

/// Growth is 8 with pages left, where the rule carries a star past the last page.
pub fn growth_without_room(run: Implementation) {
    let mut session = Session::new(run, TWO_PAGES);
    assert_eq!(answers(session.enter(32)), (0, 0));
    assert_eq!(answers(session.enter(170)), (0, 0));
    assert_eq!(session.lent.file.separators, [223, 255]);
    let before = session.clone();
    assert_eq!(answers(session.grow()), (8, 0));
    assert!(session.lent == before.lent && session.record == before.record);
}

/// Shrinking answers the pages in falling order, and takes (e, x) back through the states that the growths left.
pub fn pages_given_back(run: Implementation) {
    for list in [[2, 2, 2, 1, 8, 80, 8], [1, 1, 1, 1, 8, 50, 9], [3, 3, 1, 2, 8, 80, 14], [1, 1, 4, 1, 2, 99, 18]] {
        for multiplier in MULTIPLIERS {
            let mut session = Session::with(run, Parameters::new(list).under(multiplier));
            let first = list[1] * list[2];
            let mut states = Vec::new();
            for page in first..list[6] {
                states.push(session.record);
                assert_eq!(answers(session.grow()), (0, page));
            }
            assert_eq!(session.enter(1).refusal, 0);
            for page in (first..list[6]).rev() {
                assert_eq!(answers(session.shrink()), (0, page));
                assert_eq!(Some(session.record), states.pop());
                assert_eq!((answers(session.check()), session.look_up(1).found), ((0, 0), 1));
            }
            assert_eq!(answers(session.shrink()), (9, 0));
            assert_eq!(session.record, Record::default());
        }
    }
}

/// A growth then a shrink leaves a clean file as it was, and so does a shrink then a growth.
pub fn there_and_back(run: Implementation) {
    let mut session = Session::new(run, [2, 2, 2, 1, 8, 80, 16]);
    let (mut grown, mut number) = (0, 0);
    while session.record.growth != (Growth { expansions: 4, expanded: 0 }) {
        for _ in 0..2 {
            number += 1;
            assert_eq!(session.enter(number).refusal, 0);
        }
        let before = session.clone();
        grown += u32::from(session.grow().refusal == 0);
        let after = session.clone();
        assert_eq!(answers(session.shrink()), (0, 3 + grown));
        assert!(session.lent == before.lent && session.record == before.record);
        assert_eq!(answers(session.grow()), (0, 3 + grown));
        assert!(session.lent == after.lent && session.record == after.record);
    }
    assert_eq!(grown, 12);
}

/// Shrinking a clean file is 8 where the rule carries a star past the last page.
pub fn shrinking_without_room(run: Implementation) {
    let mut session = Session::new(run, [1, 1, 1, 1, 1, 50, 2]);
    assert_eq!(answers(session.grow()), (0, 1));
    assert_eq!(session.record.growth, Growth { expansions: 1, expanded: 0 });
    assert_eq!((session.enter(1).refusal, session.enter(4).refusal), (0, 0));
    assert_eq!(answers(session.check()), (0, 0));
    let before = session.clone();
    assert_eq!(answers(session.shrink()), (8, 0));
    assert!(session.lent == before.lent && session.record == before.record);
    // Damage is met before that, on the lowest page.
    session.lent.file.words[1] = u64::MAX;
    assert_eq!(answers(session.shrink()), (5, 1));
    session.lent.file.separators[0] = 2;
    assert_eq!(answers(session.shrink()), (5, 0));
}

/// There is nothing to give back at (0, 0), whatever the pages hold; the pool is zeros after that.
pub fn nothing_to_give_back(run: Implementation) {
    let mut session = Session::new(run, TWO_PAGES);
    session.lent.file.words = vec![u64::MAX, 7];
    session.lent.file.numbers = vec![u32::MAX, 0];
    session.lent.file.owners = vec![0, 7];
    session.lent.pool_numbers.fill(7);
    session.lent.pool_words.fill(7);
    session.lent.pool_owners.fill(7);
    let mut expected = session.clone();
    assert_eq!(answers(session.call(Kind::Shrink, 0, u32::MAX, 0)), (9, 0));
    expected.lent.pool_numbers.fill(0);
    expected.lent.pool_words.fill(0);
    expected.lent.pool_owners.fill(0);
    assert!(session.lent == expected.lent && session.record == expected.record);
    session.lent.pool_words.push(0);
    assert_eq!(answers(session.shrink()), (2, 0));
    session.parameters.pages = 1_025;
    assert_eq!(answers(session.shrink()), (1, 0));
}

/// Growth repairs a file that is all sound and that the check refuses, and so does shrinking.
pub fn growth_repairs(run: Implementation) {
    let mut session = Session::new(run, TWO_PAGES);
    session.lent.file.separators.fill(0);
    assert_eq!(spot(session.check()), (5, 0, 1));
    assert_eq!(answers(session.grow()), (0, 1));
    assert_eq!(session.lent.file.separators, [255, 255]);
    assert_eq!(answers(session.check()), (0, 0));
    session.lent.file.separators.fill(0);
    assert_eq!(answers(session.shrink()), (0, 1));
    assert_eq!(session.lent.file.separators, [255, 255]);
    assert_eq!(answers(session.check()), (0, 0));
}

/// An entry into a file that is not clean stands below the page that was first named.
pub fn entry_below_named_page(run: Implementation) {
    let mut session = Session::new(run, TWO_PAGES);
    session.lent.file.separators[0] = 0;
    assert_eq!(answers(session.look_up(32)), (0, 1));
    assert_eq!(answers(session.enter(32)), (0, 0));
    assert_eq!((&session.lent.file.separators[..], &session.lent.file.numbers[..]), (&[255, 255][..], &[32, 0][..]));
}

/// A removal raises the separator of the home page, though the star stood above it.
pub fn removal_raises_separator(run: Implementation) {
    let mut session = Session::new(run, TWO_PAGES);
    session.enter(170);
    session.enter(32);
    assert_eq!((&session.lent.file.separators[..], &session.lent.file.numbers[..]), (&[223, 255][..], &[170, 32][..]));
    assert_eq!(answers(session.remove(32)), (0, 1));
    assert_eq!((&session.lent.file.separators[..], &session.lent.file.numbers[..]), (&[255, 255][..], &[170, 0][..]));
}

/// An entry into a file that is all sound and not clean is 8, though the rule over the whole file would fit.
pub fn entry_without_room_in_its_reach(run: Implementation) {
    let mut session = Session::new(run, [1, 2, 1, 1, 8, 50, 2]);
    let lower = (1..).find(|&number| session.home(number) == 0).unwrap();
    let upper = (1..).find(|&number| session.home(number) == 1).unwrap();
    session.lent.file.separators = vec![0, 255];
    session.lent.file.numbers = vec![0, lower];
    session.lent.file.words = vec![0, pack(1, 0)];
    assert_eq!(session.check().place, 0);
    assert_eq!(answers(session.enter(upper)), (8, 0));
    let stars = [lower, upper].map(|number| Star { number, word: pack(1, 0), owner: 0 });
    assert!(lay_out(&session.parameters, &session.record.growth, stars.to_vec()).is_some());
}

/// All places full and one star more: 8, but only once every page of the reach was found sound.
pub fn entry_into_full_file(run: Implementation) {
    let mut session = Session::new(run, [2, 4, 1, 2, 8, 99, 4]);
    let mut number = 0;
    while session.lent.file.numbers.contains(&0) {
        number += 1;
        let home = session.home(number) as usize;
        if session.lent.file.numbers[2 * home + 1] == 0 {
            assert_eq!(answers(session.enter(number)), (0, home as u32));
        }
    }
    let newcomer = (number + 1..).find(|&number| session.home(number) == 0).unwrap();
    assert_eq!(answers(session.check()), (0, 0));
    for (word, refused) in [(session.lent.file.words[7], (8, 0)), (u64::MAX, (5, 3))] {
        session.lent.file.words[7] = word;
        assert_eq!((answers(session.enter(newcomer)), answers(session.cascade(newcomer))), (refused, refused));
    }
}

/// What the check names, in its order: unsound pages first, then places, then the separator.
pub fn check_order(run: Implementation) {
    let mut session = Session::new(run, TWO_PAGES);
    assert_eq!(spot(session.check()), (0, 0, 0));
    session.lent.file.separators = vec![100, 255];
    assert_eq!(spot(session.check()), (5, 0, 1));
    session.lent.file.numbers[1] = 32;
    assert_eq!(spot(session.check()), (5, 0, 0));
    session.lent.file.words[1] = u64::MAX;
    assert_eq!(spot(session.check()), (5, 1, 1));
}

/// Due counts every number that is not 0, and a separator above 2^k − 1 still names its page.
pub fn damaged_values(run: Implementation) {
    let mut session = Session::new(run, [1, 1, 1, 1, 4, 50, 2]);
    session.lent.file.numbers = vec![u32::MAX, 7];
    let outcome = session.due();
    assert_eq!((outcome.refusal, outcome.due, outcome.stars), (0, 1, 2));
    session.lent.file.numbers = vec![0, u32::MAX];
    assert_eq!((session.due().due, session.due().stars), (0, 1));
    let mut session = Session::new(run, [1, 1, 1, 1, 4, 50, 2]);
    session.lent.file.separators = vec![0, 16];
    assert_eq!(answers(session.look_up(1)), (5, 1));
    session.lent.file.separators = vec![0, 0];
    assert_eq!(answers(session.look_up(1)), (5, 2));
}

/// The place on the page first named, in every answer after that search.
pub fn places(run: Implementation) {
    let mut session = Session::new(run, TWO_PAGES);
    assert_eq!(spot(session.enter(32)), (0, 0, 0));
    assert_eq!(spot(session.enter(170)), (0, 0, 1));
    assert_eq!(spot(session.look_up(32)), (0, 1, 0));
    let mut session = Session::new(run, [4, 1, 1, 1, 8, 80, 1]);
    for (place, number) in [(0, 10), (1, 20), (2, 30)] {
        assert_eq!(spot(session.enter(number)), (0, 0, place));
    }
    for (number, place) in [(9, 0), (10, 0), (11, 1), (30, 2), (31, 3)] {
        assert_eq!(spot(session.look_up(number)), (0, 0, place));
    }
    assert_eq!(spot(session.enter(15)), (0, 0, 1));
    assert_eq!(spot(session.enter(40)), (8, 0, 4));
    assert_eq!(spot(session.look_up(40)), (0, 0, 4));
    assert_eq!(spot(session.call(Kind::Enter, 15, 2, 0)), (6, 0, 1));
    assert_eq!(spot(session.call(Kind::Enter, 15, 1_296_000_000, 0)), (4, 0, 0));
    assert_eq!(spot(session.call(Kind::Change, 20, 0, 0)), (0, 0, 2));
    assert_eq!(spot(session.call(Kind::Change, 19, 0, 0)), (7, 0, 2));
    assert_eq!(spot(session.remove(31)), (7, 0, 4));
    assert_eq!(spot(session.remove(30)), (0, 0, 3));
    assert_eq!(spot(session.check()), (0, 0, 0));
    // The lower page passes every star on and is damaged: the reach meets it after the search.
    let mut session = Session::new(run, [2, 1, 1, 1, 8, 50, 2]);
    session.lent.file.separators[0] = 0;
    session.lent.file.numbers = vec![0, 0, 5, 9];
    session.lent.file.words = vec![7, 0, pack(1, 0), pack(1, 0)];
    assert_eq!(spot(session.enter(170)), (5, 0, 2));
    assert_eq!(spot(session.remove(9)), (5, 0, 1));
    assert_eq!(spot(session.look_up(7)), (0, 1, 1));
    session.lent.file.words[2] = u64::MAX;
    assert_eq!(spot(session.look_up(7)), (5, 1, 0));
    assert_eq!(spot(session.enter(7)), (5, 1, 0));
}

/// A resend of the stored position is accepted, though the reach is damaged or the caller a stranger; any other position
/// is 6.
pub fn resends(run: Implementation) {
    let mut session = Session::new(run, TWO_PAGES);
    session.caller = 5;
    session.enter(170);
    session.enter(32);
    for (damage, caller) in [(pack(1, 0), 0), (pack(1, 0), 9), (u64::MAX, 0), (u64::MAX, 9)] {
        session.lent.file.words[0] = damage;
        session.caller = caller;
        for kind in Kind::ENTRIES {
            session.lent.pool_words.fill(7);
            let mut expected = session.clone();
            expected.lent.pool_words.fill(0);
            assert_eq!(spot(session.call(kind, 32, 1, 0)), (0, 1, 0));
            assert!(session.lent == expected.lent && session.record == expected.record);
            assert_eq!(answers(session.call(kind, 32, 1, 1)), (6, 0));
            assert_eq!(answers(session.call(kind, 32, 2, 0)), (6, 0));
            assert!(session.lent == expected.lent);
        }
    }
    assert_eq!((answers(session.enter(170)), answers(session.cascade(170))), ((5, 0), (5, 0)));
}

/// A cascading entry is the entry on a clean file; on others it raises no separator and reads no page below the named one,
/// nor above the first past which nothing is carried.
pub fn cascades(run: Implementation) {
    let file = |session: &Session| (session.lent.file.separators.clone(), session.lent.file.numbers.clone());
    for (first, second, page, place) in [(32, 170, 0, 1), (170, 32, 1, 0)] {
        let mut session = Session::new(run, TWO_PAGES);
        assert_eq!(spot(session.cascade(first)), (0, 0, 0));
        assert_eq!(spot(session.cascade(second)), (0, page, place));
        assert_eq!(file(&session), (vec![223, 255], vec![170, 32]));
        let before = session.clone();
        assert_eq!(spot(session.cascade(1)), (8, 0, 0));
        assert!(session.lent == before.lent);
        session.lent.file.words[1] = u64::MAX;
        assert_eq!(spot(session.cascade(1)), (5, 1, 0));
    }
    // Neither the page that passes every star on nor the one above the named page is read.
    let mut session = Session::new(run, [1, 1, 1, 1, 8, 50, 3]);
    session.lent.file.separators = vec![0, 200, 255];
    session.lent.file.words = vec![7, 0, 7];
    assert_eq!((answers(session.enter(32)), spot(session.cascade(32))), ((5, 0), (0, 1, 0)));
    assert_eq!(file(&session), (vec![0, 200, 255], vec![0, 32, 0]));
    assert_eq!(session.lent.file.words, [7, pack(1, 0), 7]);
    // Star 13 (signature 146) pushes 170 on, whose 215 passes page 1: that page is visited and keeps its separator.
    let mut session = Session::new(run, [1, 1, 1, 1, 8, 50, 3]);
    assert_eq!(spot(session.cascade(170)), (0, 0, 0));
    session.lent.file.separators[1] = 200;
    session.lent.file.words[1] = 7;
    assert_eq!(spot(session.cascade(13)), (5, 1, 0));
    session.lent.file.words[1] = 0;
    assert_eq!(spot(session.cascade(13)), (0, 0, 0));
    assert_eq!(file(&session), (vec![149, 200, 255], vec![13, 0, 170]));
}

/// A star on a page above the highest address makes that page one in use.
pub fn pages_in_use(run: Implementation) {
    let mut session = Session::new(run, [2, 1, 1, 1, 8, 99, 3]);
    for (number, due) in [(1, 0), (2, 1), (3, 0)] {
        assert_eq!(session.enter(number).refusal, 0);
        assert_eq!((session.due().due, session.due().stars), (due, number));
    }
    assert!(session.lent.file.numbers[2] != 0 && session.lent.file.numbers[3..] == [0, 0, 0]);
}

/// A refusal 1 to 4 leaves the pool as it is; every other call that takes it leaves zeros.
pub fn pool_contents(run: Implementation) {
    let pool = |session: &Session| {
        let Buffers { pool_numbers, pool_words, pool_owners, .. } = session.lent.clone();
        (pool_numbers, pool_words, pool_owners)
    };
    for kind in run.kinds().into_iter().filter(|kind| kind.takes_pool()) {
        let mut session = Session::new(run, TWO_PAGES);
        session.lent.pool_words.fill(7);
        session.lent.pool_owners.fill(7);
        session.parameters.load = 100;
        assert_eq!(session.call(kind, 1, 0, 0).refusal, 1);
        assert_eq!(pool(&session), (vec![0, 0], vec![7, 7], vec![7, 7]));
        session.parameters.load = 50;
        session.lent.pool_numbers.push(7);
        assert_eq!(session.call(kind, 1, 0, 0).refusal, 2);
        assert_eq!(pool(&session), (vec![0, 0, 7], vec![7, 7], vec![7, 7]));
        session.lent.pool_numbers = vec![7, 7];
        session.call(kind, 1, 0, 0);
        assert_eq!(pool(&session), (vec![0; 2], vec![0; 2], vec![0; 2]));
    }
}

/// A star is its caller's; besides its owner the institute alone changes and removes it, and a change leaves the owner.
pub fn strangers(run: Implementation) {
    let mut session = Session::new(run, [4, 1, 1, 1, 8, 80, 1]);
    for (caller, number) in [(5, 10), (255, 20), (0, 30)] {
        session.caller = caller;
        assert_eq!(spot(session.enter(number)), (0, 0, number / 10 - 1));
    }
    assert_eq!(session.lent.file.owners, [5, 255, 0, 0]);
    let alter = |session: &mut Session, caller, kind, number| {
        session.caller = caller;
        spot(session.call(kind, number, 2, 0))
    };
    for kind in [Kind::Change, Kind::Remove] {
        session.lent.pool_owners.fill(7);
        let before = session.clone();
        for (caller, number, place) in [(5, 20, 1), (5, 30, 2), (254, 20, 1), (255, 10, 0), (1, 30, 2)] {
            assert_eq!(alter(&mut session, caller, kind, number), (13, 0, place));
            assert_eq!(alter(&mut session, caller, kind, number + 1), (7, 0, place + 1));
        }
        let pool_owners = if kind.takes_pool() { vec![0; 4] } else { vec![7; 4] };
        assert!(session.lent == Buffers { pool_owners, ..before.lent });
    }
    for (caller, number, place) in [(5, 10, 0), (0, 20, 1), (0, 30, 2)] {
        assert_eq!(alter(&mut session, caller, Kind::Change, number), (0, 0, place));
    }
    let word = pack(2, 0);
    assert_eq!(
        (&session.lent.file.words[..], &session.lent.file.owners[..]),
        (&[word, word, word, 0][..], &[5, 255, 0, 0][..])
    );
    assert_eq!(alter(&mut session, 0, Kind::Remove, 10), (0, 0, 0));
    assert_eq!(
        (&session.lent.file.numbers[..], &session.lent.file.owners[..]),
        (&[20, 30, 0, 0][..], &[255, 0, 0, 0][..])
    );
    assert_eq!(alter(&mut session, 255, Kind::Remove, 20), (0, 0, 0));
}

/// A stranger is refused before the reach is read, and after the page that is named.
pub fn strangers_before_reach(run: Implementation) {
    let mut session = Session::new(run, TWO_PAGES);
    session.caller = 5;
    assert_eq!((session.enter(170).refusal, session.enter(32).refusal), (0, 0));
    session.lent.file.words[0] = u64::MAX;
    for (caller, refusal) in [(6, 13), (5, 5), (0, 5)] {
        session.caller = caller;
        assert_eq!(answers(session.remove(32)), (refusal, 0));
        assert_eq!(answers(session.remove(170)), (5, 0));
    }
}

/// Owners travel with stars that an entry, a removal, a growth or a shrink moves.
pub fn owners_travel(run: Implementation) {
    for entry in Kind::ENTRIES {
        let mut session = Session::new(run, TWO_PAGES);
        let mut after = |caller, kind, number| {
            session.caller = caller;
            assert_eq!(session.call(kind, number, 1, 0).refusal, 0);
            (session.lent.file.numbers.clone(), session.lent.file.owners.clone())
        };
        assert_eq!(after(5, entry, 32), (vec![32, 0], vec![5, 0]));
        assert_eq!(after(7, entry, 170), (vec![170, 32], vec![7, 5]));
        assert_eq!(after(7, Kind::Remove, 170), (vec![32, 0], vec![5, 0]));
    }
    let mut session = Session::new(run, [1, 2, 2, 1, 8, 80, 5]);
    session.caller = 5;
    assert_eq!(answers(session.enter(1)), (0, 3));
    session.caller = 7;
    assert_eq!((answers(session.grow()), &session.lent.file.owners[..]), ((0, 4), &[0, 0, 0, 0, 5][..]));
    assert_eq!((answers(session.shrink()), &session.lent.file.owners[..]), ((0, 4), &[0, 0, 0, 5, 0][..]));
}

/// An empty place that has an owner makes its page unsound, and no other does.
pub fn owner_of_an_empty_place(run: Implementation) {
    let mut session = Session::new(run, [2, 2, 1, 1, 8, 80, 3]);
    let number = (1..).find(|&number| session.home(number) == 1).unwrap();
    let other = (1..).find(|&number| session.home(number) == 0).unwrap();
    session.caller = 255;
    assert_eq!(spot(session.enter(number)), (0, 1, 0));
    session.lent.file.owners[3] = 128;
    assert_eq!(spot(session.check()), (5, 1, 2));
    for kind in run.kinds().into_iter().filter(|kind| kind.takes_number() && kind.takes_file()) {
        assert_eq!(spot(session.call(kind, number, 1, 0)), (5, 1, 0));
    }
    assert_eq!(answers(session.grow()), (5, 1));
    assert_eq!((answers(session.look_up(other)), answers(session.enter(other))), ((0, 0), (0, 0)));
    session.lent.file.owners[3] = 0;
    for owner in 0..=255 {
        session.lent.file.owners[2] = owner;
        assert_eq!((answers(session.check()), answers(session.look_up(number))), ((0, 0), (0, 1)));
    }
}

/// Owners of a wrong length are 2 in every call that takes the file, the pool's in those that take one.
pub fn owner_lengths(run: Implementation) {
    for kind in run.kinds().into_iter().filter(|kind| kind.takes_file()) {
        for length in [0, 1, 3, 4] {
            let mut session = Session::new(run, TWO_PAGES);
            session.lent.file.owners.resize(length, 0);
            let before = session.clone();
            assert_eq!(answers(session.call(kind, 0, u32::MAX, 0)), (2, 0), "{}", kind.name());
            assert!(session.lent == before.lent);
            let mut session = Session::new(run, TWO_PAGES);
            session.lent.pool_owners.resize(length, 7);
            let before = session.clone();
            assert_eq!(session.call(kind, 1, 1, 0).refusal == 2, kind.takes_pool(), "{}", kind.name());
            assert!(session.lent.pool_owners == before.lent.pool_owners);
        }
    }
}

/// Leaves something in the pool, which calls need not find empty.
fn fill_pool(session: &mut Session) {
    session.lent.pool_numbers.fill(7);
    session.lent.pool_words.fill(7);
    session.lent.pool_owners.fill(7);
}

/// Opening empties the second set and step j + 1 writes page j of it; after M of them it is the file that growing leaves. Till
/// then look-ups, Due and the check answer from the old file, which stays.
pub fn growth_in_steps(run: Implementation) {
    let files =
        [([2, 2, 2, 1, 8, 80, 8], 12), ([1, 1, 1, 1, 8, 50, 2], 1), ([3, 2, 1, 2, 4, 80, 5], 6), (TWO_PAGES, 0)];
    for ((list, stars), multiplier) in
        files.into_iter().flat_map(|file| MULTIPLIERS.map(|multiplier| (file, multiplier)))
    {
        let mut session = Session::with(run, Parameters::new(list).under(multiplier));
        for number in 1..=stars {
            session.caller = number as u8;
            session.enter(number);
        }
        let (mut old, mut grown) = (session.clone(), session.clone());
        let at_once = grown.grow();
        assert_eq!(at_once.refusal, 0);
        session.lent.second.separators.fill(1);
        session.lent.second.words.fill(7);
        for steps in 0..=list[6] {
            fill_pool(&mut session);
            let outcome = if steps == 0 { session.open_growth() } else { session.step_growth() };
            old.lent.second = second_after(&session.parameters, &grown.lent.file, steps);
            assert!(session.lent == old.lent);
            if steps == list[6] {
                assert_eq!(outcome, at_once);
                break;
            }
            let record = Record { open: true, steps, ..old.record };
            assert_eq!(outcome, Outcome { record, ..Outcome::default() });
            for number in 1..stars + 3 {
                assert_eq!(session.look_up(number), Outcome { record, ..old.look_up(number) });
            }
            assert_eq!(session.due(), Outcome { record, ..old.due() });
            assert_eq!(session.check(), Outcome { record, ..old.check() });
        }
        assert!(session.lent.second == grown.lent.file && session.record == grown.record);
        assert_eq!(answers(session.step_growth()), (16, 0));
    }
}

/// While a growth is open every kind that writes the file or opens a growth is 16, after 2 and before all else; a step is when
/// none is open.
pub fn out_of_turn(run: Implementation) {
    for kind in run.kinds().into_iter().filter(|kind| kind.takes_file()) {
        for open in [false, true] {
            let mut session = Session::new(run, TWO_PAGES);
            session.record.open = open;
            // A resend waits too, and so does what would be refused with 3, 4, 5, 8, 9 or 13.
            assert_eq!(session.clone().enter(170).refusal, if open { 16 } else { 0 });
            session.lent.file.numbers = vec![170, 0];
            session.lent.file.words = vec![pack(1, 0), if kind == Kind::Enter { 0 } else { 7 }];
            session.caller = 9;
            let waits = if open { kind.waits() } else { kind == Kind::Step };
            for (number, ra) in [(170, 1), (0, 0), (1, u32::MAX)] {
                let mut session = session.clone();
                fill_pool(&mut session);
                let mut expected = session.clone();
                if kind.takes_pool() {
                    expected.lent.pool_numbers.fill(0);
                    expected.lent.pool_words.fill(0);
                    expected.lent.pool_owners.fill(0);
                }
                let outcome = session.call(kind, number, ra, 0);
                assert_eq!(outcome.refusal == 16, waits, "{} with {open}", kind.name());
                if waits {
                    assert_eq!(spot(outcome), (16, 0, 0));
                    assert!(session.lent == expected.lent && session.record == expected.record);
                }
            }
            session.lent.file.words.pop();
            assert_eq!(answers(session.call(kind, 170, 1, 0)), (2, 0));
        }
    }
}

/// A record with M steps done or more, or with steps and none open, is 1 in every call but making a file, which ends a growth.
pub fn record_limits(run: Implementation) {
    for kind in run.kinds() {
        let records = [(true, 0, true), (true, 1, true), (true, 2, false), (true, u32::MAX, false), (false, 0, true)];
        for (open, steps, valid) in records.into_iter().chain([(false, 1, false), (false, u32::MAX, false)]) {
            let mut session = Session::new(run, TWO_PAGES);
            (session.record.open, session.record.steps) = (open, steps);
            fill_pool(&mut session);
            let before = session.clone();
            let refusal = session.call(kind, 1, 1, 0).refusal;
            assert_eq!(refusal == 1, !valid && kind != Kind::Make, "{} with {open} {steps}", kind.name());
            if refusal == 1 {
                assert!(session.lent == before.lent && session.record == before.record);
                session.lent.file.words.pop();
                assert_eq!(answers(session.call(kind, 0, u32::MAX, 0)), (1, 0));
            }
            if kind == Kind::Make {
                assert_eq!((refusal, session.record), (0, Record::default()));
            }
        }
    }
}

/// Opening and steps are refused as growing is, with the second set left as it was; damage holds a growth up until it is made
/// good, or until the record says that none is open.
pub fn growth_refused_in_steps(run: Implementation) {
    for kind in [Kind::Open, Kind::Step] {
        let fresh = || {
            let mut session = Session::new(run, TWO_PAGES);
            session.record.open = kind == Kind::Step;
            session.lent.second.words.fill(7);
            session.lent.second.separators.fill(7);
            session
        };
        let refused = |mut session: Session, answer: (u32, u32)| {
            let before = session.clone();
            assert_eq!(answers(session.call(kind, 0, 0, 0)), answer);
            assert!(session.lent.second == before.lent.second && session.lent.file == before.lent.file);
            assert_eq!(session.record, before.record);
        };
        // Each length of the second set, before all else but 1.
        for wrong in 0..4 {
            let mut session = fresh();
            session.record.open ^= true;
            let second = &mut session.lent.second;
            match wrong {
                0 => second.separators.push(0),
                1 => second.numbers.push(0),
                2 => second.words.clear(),
                _ => second.owners.truncate(1),
            }
            refused(session, (2, 0));
        }
        // Growing meets 8 at the last page before it reads any page, then 5, then 8.
        let mut session = fresh();
        session.lent.file.numbers = vec![170, 32];
        session.lent.file.words = vec![pack(1, 0), 7];
        session.lent.file.separators[0] = 223;
        refused(session.clone(), (8, 0));
        session.lent.file.words[1] = u64::MAX;
        refused(session.clone(), (5, 1));
        session.record.growth = Growth { expansions: 1, expanded: 0 };
        refused(session, (8, 0));
    }
    let mut session = Session::new(run, [2, 2, 2, 1, 8, 80, 8]);
    assert_eq!((session.enter(1).refusal, session.open_growth().refusal, session.step_growth().refusal), (0, 0, 0));
    let (before, page) = (session.clone(), session.look_up(1).page);
    session.lent.file.words[2 * page as usize] = u64::MAX;
    assert_eq!((answers(session.step_growth()), session.lent.second == before.lent.second), ((5, page), true));
    assert_eq!((session.remove(1).refusal, session.record), (16, before.record));
    session.lent.file.words[2 * page as usize] = pack(1, 0);
    assert_eq!((session.clone().step_growth().refusal, session.remove(1).refusal), (0, 16));
    session.record = Record::closed(session.record.growth);
    assert_eq!(answers(session.remove(1)), (0, page));
}

/// A stopped form stores an entry's pages from the highest down and a removal's from the lowest up, leaves the separators, and
/// answers as the call; mending gives the file before the call or the one after it.
pub fn stopped_stores(run: Implementation) {
    let mut first = Session::new(run, TWO_PAGES);
    first.caller = 1;
    assert_eq!(answers(first.enter(32)), (0, 0));
    let mut second = Session { caller: 2, ..first.clone() };
    assert_eq!(answers(second.enter(170)), (0, 0));
    let cut = |from: &Session, kind, number, stores| {
        let mut session = from.clone();
        let outcome = session.stopped(kind, number, stores);
        let pages = (session.lent.file.numbers.clone(), session.lent.file.separators.clone());
        session.lent.file.separators = vec![200, 7];
        fill_pool(&mut session);
        assert_eq!(session.mend().refusal, 0);
        (answers(outcome), pages, session.lent)
    };
    // The entry stores page 1, then page 0; the removal page 0, then page 1.
    let entering = |stores| cut(&Session { caller: 2, ..first.clone() }, Kind::EnterStopped, 170, stores);
    assert_eq!(entering(0), ((0, 0), (vec![32, 0], vec![255, 255]), first.lent.clone()));
    assert_eq!(entering(1), ((0, 0), (vec![32, 32], vec![255, 255]), first.lent.clone()));
    assert_eq!(entering(2), ((0, 0), (vec![170, 32], vec![223, 255]), second.lent.clone()));
    assert_eq!(entering(u32::MAX), entering(2));
    let removing = |stores| cut(&second, Kind::RemoveStopped, 170, stores);
    assert_eq!(removing(0), ((0, 0), (vec![170, 32], vec![223, 255]), second.lent.clone()));
    assert_eq!(removing(1), ((0, 0), (vec![32, 32], vec![223, 255]), first.lent.clone()));
    assert_eq!(removing(2), ((0, 0), (vec![32, 0], vec![255, 255]), first.lent.clone()));
    // A separator alone is no store: after 170, star 32 goes to page 1, and page 0 keeps its place.
    let mut session = Session::new(run, TWO_PAGES);
    assert_eq!(answers(session.enter(170)), (0, 0));
    assert_eq!(
        cut(&session, Kind::EnterStopped, 32, 0),
        ((0, 1), (vec![170, 0], vec![255, 255]), session.lent.clone())
    );
    assert_eq!(cut(&session, Kind::EnterStopped, 32, 1).1, (vec![170, 32], vec![223, 255]));
}

/// A change stores one page, and nothing if the position stays, as a resend does.
pub fn stopped_changes(run: Implementation) {
    let mut session = Session::new(run, TWO_PAGES);
    assert_eq!(answers(session.enter(170)), (0, 0));
    let before = session.lent.clone();
    for kind in [Kind::EnterStopped, Kind::ChangeStopped] {
        assert_eq!((answers(session.stopped(kind, 170, 0)), &session.lent), ((0, 0), &before));
    }
    session.lent.file.words[0] = pack(2, 0);
    let before = session.lent.clone();
    assert_eq!((answers(session.stopped(Kind::ChangeStopped, 170, 0)), &session.lent), ((0, 0), &before));
    assert_eq!(session.stopped(Kind::EnterStopped, 170, 9).refusal, 6);
    assert_eq!(
        (answers(session.stopped(Kind::ChangeStopped, 170, 1)), session.lent.file.words[0]),
        ((0, 0), pack(1, 0))
    );
}

/// On a file that is not clean a stopped entry may lose another's star: it stands on page 1 and its first page is 0.
pub fn stopped_on_sound_pages(run: Implementation) {
    let mut session = Session::new(run, [1, 1, 1, 1, 8, 50, 3]);
    session.lent.file.separators[0] = 0;
    (session.lent.file.numbers[1], session.lent.file.words[1], session.lent.file.owners[1]) = (32, pack(1, 0), 2);
    session.caller = 1;
    let mut whole = session.clone();
    assert_eq!((whole.enter(4).refusal, session.stopped(Kind::EnterStopped, 4, 1).refusal), (0, 0));
    assert!(whole.lent.file.numbers.contains(&32) && !session.lent.file.numbers.contains(&32));
}

/// Mending takes pages as they are and reads no separator; 15 comes after 16 and before 8, with page 0.
pub fn mending(run: Implementation) {
    let star = |session: &mut Session, item: usize, number, word, owner| {
        let file = &mut session.lent.file;
        (file.numbers[item], file.words[item], file.owners[item]) = (number, word, owner);
    };
    let mut clean = Session::new(run, [3, 1, 1, 1, 8, 50, 2]);
    assert_eq!((clean.enter(170).refusal, clean.enter(32).refusal), (0, 0));
    let mut session = Session::new(run, [3, 1, 1, 1, 8, 50, 2]);
    for (item, number) in [(1, 170), (3, 32), (4, 170), (5, 32)] {
        star(&mut session, item, number, pack(1, 0), 0);
    }
    session.lent.file.separators = vec![0, 9];
    let mut mended = session.clone();
    fill_pool(&mut mended);
    assert_eq!((spot(mended.mend()), &mended.lent, mended.record), ((0, 0, 0), &clean.lent, session.record));
    let damage = [
        (4, 170, pack(2, 0), 0),
        (4, 170, pack(1, 0), 3),
        (2, 2_147_483_647, pack(1, 0), 0),
        (2, 5, u64::MAX, 0),
        (2, 0, 1, 0),
        (2, 0, 0, 1),
    ];
    for (item, number, word, owner) in damage {
        let mut session = session.clone();
        star(&mut session, item, number, word, owner);
        let before = session.lent.clone();
        fill_pool(&mut session);
        assert_eq!((spot(session.mend()), &session.lent), ((15, 0, 0), &before));
        session.record.open = true;
        assert_eq!(session.mend().refusal, 16);
    }
    // Two stars of one home with one signature on both pages, or none that is below 1.
    let mut full = Session::new(run, [1, 1, 1, 1, 1, 50, 2]);
    star(&mut full, 0, 1, pack(1, 0), 0);
    star(&mut full, 1, 2, pack(1, 0), 0);
    let before = full.lent.clone();
    assert_eq!((spot(full.mend()), &full.lent), ((8, 0, 0), &before));
    full.lent.file.owners[0] = 1;
    assert_eq!(full.mend().refusal, 8);
    full.lent.file.words[0] = u64::MAX;
    assert_eq!(full.mend().refusal, 15);
}

/// Writing answers the table's length and leaves the bytes past it; 5 comes before 12, and neither waits for a growth nor looks at
/// owners.
pub fn writing(run: Implementation) {
    let mut session = Session::new(run, [3, 1, 1, 1, 8, 50, 2]);
    session.caller = 9;
    for number in [170, 32, 2_147_483_646] {
        assert_eq!(session.enter(number).refusal, 0);
    }
    let stars = [32, 170, 2_147_483_646].map(|number| Star { number, word: pack(1, 0), owner: 0 });
    let table = fits::table(&stars);
    for open in [false, true] {
        session.record.open = open;
        for past in [0, 1, 2_880] {
            session.lent.table = vec![170; table.len() + past];
            let written = session.call(Kind::Write, 0, 0, 0);
            let (record, length) = (session.record, table.len() as u32);
            assert_eq!(written, Outcome { length, record, ..Outcome::default() });
            assert_eq!(session.lent.table, [&table[..], &vec![170; past]].concat());
        }
    }
    for length in [0, 5_760, table.len() - 1] {
        session.lent.table = vec![170; length];
        assert_eq!((spot(session.call(Kind::Write, 0, 0, 0)), &session.lent.table), ((12, 0, 0), &vec![170; length]));
    }
    session.lent.file.owners[5] = 1;
    assert_eq!(spot(session.call(Kind::Write, 0, 0, 0)), (5, 1, 0));
    session.lent.file.words[0] = u64::MAX;
    assert_eq!(spot(session.call(Kind::Write, 0, 0, 0)), (5, 0, 0));
    assert_eq!(session.lent.table, vec![170; table.len() - 1]);
}

/// Reading replaces whatever the file held, with owner 0 for all; 16, 10, 11, 8 in this order, each leaving the file.
pub fn reading(run: Implementation) {
    let star = |number| Star { number, word: pack(1, 0), owner: 0 };
    let mut session = Session::new(run, [3, 2, 1, 1, 8, 50, 4]);
    session.record.growth = Growth { expansions: 1, expanded: 0 };
    session.lent.file.words.fill(7);
    session.lent.file.owners.fill(7);
    let read = |session: &Session, table: &[u8]| {
        let mut session = session.clone();
        session.lent.table = table.to_vec();
        fill_pool(&mut session);
        let outcome = session.call(Kind::Read, 0, 0, 0);
        assert!(session.lent.table == table && session.lent.pool_words == vec![0; 12]);
        (outcome, session)
    };
    let table = fits::table(&[star(5), star(6), star(2_147_483_646)]);
    let (outcome, after) = read(&session, &table);
    assert_eq!(outcome, Outcome { record: session.record, ..Outcome::default() });
    let rows = vec![star(5), star(6), star(2_147_483_646)];
    assert_eq!(after.lent.file, lay_out(&session.parameters, &session.record.growth, rows).unwrap().file);
    let refused = |session: &Session, table: &[u8], refusal: u32| {
        let (outcome, after) = read(session, table);
        assert_eq!((spot(outcome), &after.lent.file), ((refusal, 0, 0), &session.lent.file));
    };
    let altered = |at: usize, byte: u8| {
        let mut table = table.clone();
        table[at] = byte;
        table
    };
    refused(&session, &[], 10);
    refused(&session, &table[..table.len() - 1], 10);
    refused(&session, &[&table[..], &[0]].concat(), 10);
    refused(&session, &altered(3_229, b'4'), 11);
    refused(&session, &altered(3_228, b'0'), 10);
    refused(&session, &altered(2_879, b'\n'), 10);
    // A number again, one beyond the limits, a declination, a pad; the header comes first.
    refused(&session, &altered(5_760 + 15, 5), 11);
    refused(&session, &altered(5_760 + 27, 255), 11);
    refused(&session, &altered(5_760 + 8, 127), 11);
    refused(&session, &altered(5_760 + 36, 1), 11);
    refused(&session, &altered(8_639, 1), 11);
    // More rows than places are 8, but only if each is right.
    let many: Vec<Star> = (1..=13).map(star).collect();
    refused(&session, &fits::table(&many), 8);
    let mut wrong = fits::table(&many);
    wrong[8_639] = 1;
    refused(&session, &wrong, 11);
    session.record.open = true;
    refused(&session, &[], 16);
}

/// Carrying takes each star for its owner to the other multiplier, and an open growth of the old file does not matter; 1 for both files
/// and for the same multiplier again, 2 for all lengths, 16 by the new file's record, 5, 8.
pub fn carrying(run: Implementation) {
    let mut session = Session::new(run, [3, 1, 1, 1, 8, 50, 2]);
    for (caller, number) in [(9, 170), (0, 32), (255, 2_147_483_646)] {
        session.caller = caller;
        assert_eq!(session.enter(number).refusal, 0);
    }
    session.record.open = true;
    session.lent.second.words.fill(7);
    fill_pool(&mut session);
    let new = Parameters::new([2, 1, 1, 1, 8, 50, 3]).under(MULTIPLIERS[1]);
    let fitting = |new: &Parameters| Buffers { file: session.lent.file.clone(), ..Buffers::zeros(new) };
    let call = Call { new_parameters: new, ..Call::new(Kind::Carry, session.parameters, session.record) };
    let stars: Vec<Star> = session.lent.file.stars().collect();
    let mut lent = fitting(&new);
    let outcome = (run.run)(&call, &mut lent);
    assert_eq!(outcome, Outcome { record: session.record, ..Outcome::default() });
    let expected = lay_out(&new, &Growth::default(), stars).unwrap();
    assert_eq!(lent, Buffers { second: expected.file, ..fitting(&new) });
    let refused = |call: Call, lent: &Buffers, refusal: (u32, u32, u32)| {
        let mut after = lent.clone();
        assert_eq!(spot((run.run)(&call, &mut after)), refusal);
        assert!(after.second == lent.second && after.file == lent.file);
    };
    let lent = fitting(&new);
    refused(Call { new_parameters: new.under(MULTIPLIERS[0]), ..call }, &lent, (1, 0, 0));
    refused(Call { new_parameters: Parameters { load: 100, ..new }, ..call }, &lent, (1, 0, 0));
    refused(Call { new_record: Record { steps: 1, ..Record::default() }, ..call }, &lent, (1, 0, 0));
    refused(Call { record: Record { steps: 2, ..session.record }, ..call }, &lent, (1, 0, 0));
    let open = Record { open: true, ..Record::default() };
    let old_sizes = fitting(&session.parameters);
    refused(Call { new_parameters: Parameters { pages: 4, ..new }, ..call }, &old_sizes, (2, 0, 0));
    let mut damaged = lent.clone();
    damaged.file.words[0] = u64::MAX;
    refused(Call { new_record: open, ..call }, &damaged, (16, 0, 0));
    refused(call, &damaged, (5, 0, 0));
    // Three stars for one place.
    let small = Parameters { places: 1, pages: 1, ..new };
    refused(Call { new_parameters: small, ..call }, &fitting(&small), (8, 0, 0));
}

/// A test of each point for an implementation.
#[macro_export]
macro_rules! point_tests {
    ($run:path) => {
        $crate::point_tests!($run: empty_file homes multipliers value_limits parameter_limits multiplier_limits growth_limits
            second_star_of_a_home growth_without_room pages_given_back there_and_back shrinking_without_room
            nothing_to_give_back growth_repairs entry_below_named_page removal_raises_separator
            entry_without_room_in_its_reach entry_into_full_file check_order damaged_values places resends cascades
            pages_in_use pool_contents strangers strangers_before_reach owners_travel owner_of_an_empty_place owner_lengths
            growth_in_steps out_of_turn record_limits growth_refused_in_steps stopped_stores stopped_changes
            stopped_on_sound_pages mending writing reading carrying);
    };
    ($run:path: $($name:ident)*) => {
        $(#[test] fn $name() { $crate::points::$name($run) })*
    };
}
