//! The documents' points about the definitions, and the given vectors, against the model.

use model::files::{clean_file, edge_parameters, random_growth, random_star, small_parameters, LARGE};
use model::hashing::{grown, highest_address, home, rank, shrunk, signature, x};
use model::placement::{pack, separator, unpack, word_valid, Star};
use model::random::Random;
use model::session::Session;
use model::{fits, hdu, points, starline::starline, vectors, Growth, Parameters, Record, LANDED, MODEL};
use std::fs;

const FOLDER: &str = concat!(env!("CARGO_MANIFEST_DIR"), "/../vectors");

#[test]
fn generator() {
    points::generator(x);
}

#[test]
fn signatures() {
    let parameters = Parameters::new([2, 2, 2, 1, 8, 80, 8]);
    assert_eq!(signature(&parameters, 1, 1), 158);
    assert_eq!(signature(&parameters, 1, 2), 175);
    assert_eq!(signature(&parameters, 2, 1), 189);
    let pairs = |multiplier| {
        [(1, 1), (1, 2), (32, 1), (32, 2), (170, 1), (170, 2)]
            .map(|(star, t)| signature(&parameters.under(multiplier), star, t))
    };
    assert_eq!(pairs(16_807), [158, 175, 223, 126, 149, 215]);
    assert_eq!(pairs(48_271), [171, 76, 254, 152, 51, 252]);
}

#[test]
fn ranks() {
    points::ranks(rank);
}

#[test]
fn home_addresses() {
    let parameters = Parameters::new([2, 2, 2, 1, 8, 80, 8]);
    let home = |expanded, star| home(&parameters, &Growth { expansions: 0, expanded }, star);
    assert_eq!((home(0, 1), home(1, 1)), (3, 4));
    let after_two = Growth { expansions: 1, expanded: 0 };
    assert_eq!((home(0, 2), model::hashing::home(&parameters, &after_two, 2)), (2, 5));
}

/// Growths lead through all sizes up to M, and each state back to the one before.
#[test]
fn growth_states() {
    for parameters in edge_parameters().into_iter().chain(LARGE.map(Parameters::new)) {
        let mut growth = Growth::default();
        assert_eq!(shrunk(&parameters, &growth), None);
        for page in parameters.width * parameters.groups..parameters.pages {
            let next = grown(&parameters, &growth);
            assert_eq!(highest_address(&parameters, &next), page.into());
            assert_eq!(shrunk(&parameters, &next), Some(growth));
            growth = next;
        }
    }
}

#[test]
fn separators() {
    let kept = |room, signatures: &[u64]| {
        let separator = separator(room, 15, signatures);
        (signatures.iter().filter(|&&signature| signature < separator).count(), separator)
    };
    assert_eq!(kept(4, &[1, 3, 4, 4, 8]), (4, 8));
    assert_eq!(kept(3, &[1, 3, 4, 4, 8]), (2, 4));
    assert_eq!(kept(1, &[3, 8]), (1, 8));
    assert_eq!(kept(1, &[5, 5]), (0, 5));
}

/// A cascading entry into a clean file answers and leaves what the entry does.
#[test]
fn cascades_as_entries() {
    let mut random = Random(1);
    for _ in 0..3_000 {
        let parameters = small_parameters(&mut random);
        let growth = random_growth(&mut random, &parameters);
        let lent = clean_file(&mut random, &parameters, &growth, 100);
        let record = Record::closed(growth);
        let mut entered = Session { run: MODEL, parameters, record, lent, caller: 0 };
        for _ in 0..10 {
            let (number, mut cascaded) = (random.star_number(), entered.clone());
            assert_eq!((cascaded.cascade(number), &cascaded.lent), (entered.enter(number), &entered.lent));
        }
    }
}

#[test]
fn position_words() {
    assert_eq!(pack(1, 0), 4_618_967_296);
    for (ra, dec) in [(0, -324_000_000), (0, 324_000_000), (1_295_999_999, 0), (1_295_999_999, 324_000_000)] {
        assert!(word_valid(pack(ra, dec)));
        assert_eq!(unpack(pack(ra, dec)), (ra, dec));
    }
    assert!(!word_valid(pack(0, 324_000_001)) && !word_valid(pack(1_296_000_000, 0)));
}

#[test]
fn call_vectors() {
    for (name, count) in
        [("4-i", 900), ("5-ix-xiv", 900), ("6-xiii", 1_000), ("7-xii", 1_200), ("8-vi", 235), ("8-viii", 116)]
    {
        let text = fs::read_to_string(format!("{FOLDER}/{name}.txt")).unwrap();
        let vectors = vectors::parse(&text, LANDED);
        assert_eq!(vectors.len(), count);
        for (line, vector) in vectors {
            let vector = vector.unwrap();
            assert_eq!(vector.differences(MODEL), Vec::<String>::new(), "{name}, line {line}");
            let text = vector.text(LANDED);
            assert_eq!(vectors::parse(&text, LANDED)[0].1.as_ref().unwrap().text(LANDED), text);
        }
    }
}

/// A table as one reads it: cards of 80 characters, and a row.
#[test]
fn table_bytes() {
    let cards = |block: &[u8]| {
        let cards: Vec<String> = block.chunks(80).map(|card| String::from_utf8(card.to_vec()).unwrap()).collect();
        assert!(cards.iter().all(|card| card.len() == 80));
        cards.into_iter().map(|card| card.trim_end().to_string()).filter(|card| !card.is_empty()).collect::<Vec<_>>()
    };
    let stars: Vec<Star> =
        (1..=241).map(|number| Star { number, word: pack(3, -number.cast_signed()), owner: 0 }).collect();
    let table = fits::table(&stars);
    assert_eq!(table.len(), 5_760 + 2 * 2_880);
    assert_eq!(
        cards(&table[..2_880]),
        [
            "SIMPLE  =                    T",
            "BITPIX  =                    8",
            "NAXIS   =                    0",
            "EXTEND  =                    T",
            "END"
        ]
    );
    assert_eq!(
        cards(&table[2_880..5_760]),
        [
            "XTENSION= 'BINTABLE'",
            "BITPIX  =                    8",
            "NAXIS   =                    2",
            "NAXIS1  =                   12",
            "NAXIS2  =                  241",
            "PCOUNT  =                    0",
            "GCOUNT  =                    1",
            "TFIELDS =                    3",
            "TFORM1  = '1J      '",
            "TFORM2  = '1J      '",
            "TFORM3  = '1J      '",
            "END"
        ]
    );
    assert_eq!(table[5_760 + 240 * 12..][..14], [0, 0, 0, 241, 0, 0, 0, 3, 255, 255, 255, 15, 0, 0]);
    assert_eq!(table[3_229], b'1');
    let lengths = [0, 1, 240, 241].map(|count| fits::table(&stars[..count]).len());
    assert_eq!(lengths, [5_760, 8_640, 8_640, 11_520]);
}

/// The model's tables are the Standard's, and come back from its reader and writer.
#[test]
fn tables_by_the_standard() {
    let mut random = Random(1);
    for count in [0, 1, 2, 240, 241, 1_000] {
        let mut stars: Vec<Star> = (0..count).map(|_| Star { owner: 0, ..random_star(&mut random) }).collect();
        stars.sort();
        let rows: Vec<Vec<i32>> = stars.iter().map(hdu_row).collect();
        let units = hdu::read(&fits::table(&stars)).unwrap();
        assert_eq!(units, hdu::table(3, &[], &rows));
        assert_eq!(units[1].rows().unwrap(), rows);
        let bytes = hdu::write(&units);
        assert_eq!((fits::stars(&bytes), &bytes), (Ok(stars), &fits::table(&fits::stars(&bytes).unwrap())));
        // With named columns it is a table of the Standard, but not one of ours.
        let named = hdu::table(3, &["NUMBER", "RA", "DEC"], &rows);
        assert_eq!((hdu::read(&hdu::write(&named)), fits::stars(&hdu::write(&named))), (Ok(named), Err(10)));
    }
}

fn hdu_row(star: &Star) -> Vec<i32> {
    let (ra, dec) = unpack(star.word);
    vec![star.number as i32, ra as i32, dec]
}

#[test]
fn starline_example() {
    let output = starline(b"E 1 10 -5\nL 1\nG\nL 1\nL 2\nR 2");
    assert_eq!(output, "ok 3\nat 3 10 -5\nok 4\nat 4 10 -5\nnone 2\nno 7 0\n");
}

#[test]
fn starline_vectors() {
    let folder = format!("{FOLDER}/starline");
    for case in 0..40 {
        let input = fs::read(format!("{folder}/case-{case}.in")).unwrap();
        let expected = fs::read_to_string(format!("{folder}/case-{case}.out")).unwrap();
        assert_eq!(starline(&input), expected, "case {case}");
    }
}
