//! Binary tables of the FITS Standard 4.0, as document 02 (vi) has them written and read.

use crate::placement::{pack, position_valid, unpack, Star};
use crate::HIGHEST_NUMBER;

/// The Standard's unit of length.
const BLOCK: usize = 2_880;
/// No file has more places.
const MOST_ROWS: usize = 32_768;

fn logical(keyword: &str, value: &str) -> String {
    format!("{keyword:<8}= {value:>20}")
}

fn integer(keyword: &str, value: usize) -> String {
    format!("{keyword:<8}= {value:>20}")
}

fn text(keyword: &str, value: &str) -> String {
    format!("{keyword:<8}= '{value:<8}'")
}

/// A header of whole blocks: its cards, END, blanks.
fn header(cards: &[String]) -> Vec<u8> {
    let text: String = cards.iter().map(|card| format!("{card:<80}")).chain([format!("{:<80}", "END")]).collect();
    filled(text.into_bytes(), b' ')
}

fn filled(mut bytes: Vec<u8>, filler: u8) -> Vec<u8> {
    bytes.resize(bytes.len().div_ceil(BLOCK) * BLOCK, filler);
    bytes
}

/// Both headers of a table with so many rows.
fn headers(rows: usize) -> Vec<u8> {
    let primary = [logical("SIMPLE", "T"), integer("BITPIX", 8), integer("NAXIS", 0), logical("EXTEND", "T")];
    let table = [
        text("XTENSION", "BINTABLE"),
        integer("BITPIX", 8),
        integer("NAXIS", 2),
        integer("NAXIS1", 12),
        integer("NAXIS2", rows),
        integer("PCOUNT", 0),
        integer("GCOUNT", 1),
        integer("TFIELDS", 3),
        text("TFORM1", "1J"),
        text("TFORM2", "1J"),
        text("TFORM3", "1J"),
    ];
    [header(&primary), header(&table)].concat()
}

fn row(star: &Star) -> Vec<u8> {
    let (ra, dec) = unpack(star.word);
    [star.number.to_be_bytes(), ra.to_be_bytes(), dec.to_be_bytes()].concat()
}

/// The table of stars in rising order of number.
pub fn table(stars: &[Star]) -> Vec<u8> {
    let rows = filled(stars.iter().flat_map(row).collect(), 0);
    [headers(stars.len()), rows].concat()
}

/// The stars of a table, or the refusal: 10 for headers and a length that no table has, 11 for a row or a pad.
pub fn stars(bytes: &[u8]) -> Result<Vec<Star>, u32> {
    let digits = bytes.get(3_210..3_230).and_then(|digits| std::str::from_utf8(digits).ok());
    let rows: Option<usize> = digits.and_then(|digits| digits.trim().parse().ok());
    let rows = rows.filter(|&rows| rows <= MOST_ROWS).ok_or(10_u32)?;
    let length = 2 * BLOCK + (12 * rows).div_ceil(BLOCK) * BLOCK;
    if bytes.len() != length || !bytes.starts_with(&headers(rows)) {
        return Err(10);
    }
    let (rows, pad) = bytes[2 * BLOCK..].split_at(12 * rows);
    let field = |row: &[u8], i: usize| u32::from_be_bytes(row[4 * i..4 * i + 4].try_into().unwrap());
    let position = |row: &[u8]| (field(row, 1), field(row, 2) as i32);
    let rows = || rows.chunks(12);
    let rising = rows().zip(rows().skip(1)).all(|(row, next)| field(row, 0) < field(next, 0));
    let in_range = |row: &[u8]| {
        let (ra, dec) = position(row);
        (1..=HIGHEST_NUMBER).contains(&field(row, 0)) && position_valid(ra, dec)
    };
    if !rising || !rows().all(in_range) || pad.iter().any(|&byte| byte != 0) {
        return Err(11);
    }
    let star = |row: &[u8]| {
        let (ra, dec) = position(row);
        Star { number: field(row, 0), word: pack(ra, dec), owner: 0 }
    };
    Ok(rows().map(star).collect())
}
