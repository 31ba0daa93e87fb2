//! The whole program starline, from the bytes it reads to those it writes.

use crate::{run, Buffers, Call, Kind, Parameters, Record};

pub fn starline(input: &[u8]) -> String {
    let parameters = Parameters::new([2, 2, 2, 1, 8, 80, 8]);
    let mut lent = Buffers::zeros(&parameters);
    let record = Record::default();
    let mut call = Call::new(Kind::Make, parameters, record);
    run(&call, &mut lent);
    let mut lines: Vec<&[u8]> = input.split(|&byte| byte == b'\n').collect();
    if lines.last().is_some_and(|line| line.is_empty()) {
        lines.pop();
    }
    let mut output = String::new();
    for line in lines {
        output += &match parse(line) {
            None => "bad".to_string(),
            Some((kind, number, ra, dec)) => {
                call = Call { kind, number, ra, dec, ..call };
                answer(&mut call, &mut lent)
            }
        };
        output.push('\n');
    }
    output
}

fn answer(call: &mut Call, lent: &mut Buffers) -> String {
    let outcome = run(call, lent);
    call.record = outcome.record;
    match (outcome.refusal, call.kind, outcome.found) {
        (0, Kind::LookUp, 0) => format!("none {}", outcome.page),
        (0, Kind::LookUp, _) => format!("at {} {} {}", outcome.page, outcome.ra, outcome.dec),
        (0, _, _) => format!("ok {}", outcome.page),
        (refusal, _, _) => format!("no {} {}", refusal, outcome.page),
    }
}

fn parse(line: &[u8]) -> Option<(Kind, u32, u32, i32)> {
    let fields: Vec<&[u8]> = line.split(|&byte| byte == b' ').collect();
    Some(match fields[..] {
        [b"E", number, ra, dec] => (Kind::Enter, unsigned(number)?, unsigned(ra)?, signed(dec)?),
        [b"L", number] => (Kind::LookUp, unsigned(number)?, 0, 0),
        [b"R", number] => (Kind::Remove, unsigned(number)?, 0, 0),
        [b"G"] => (Kind::Grow, 0, 0, 0),
        _ => return None,
    })
}

/// Base-ten digits without leading zeros, within 32 bits.
fn unsigned(field: &[u8]) -> Option<u32> {
    let digits = field.iter().all(u8::is_ascii_digit);
    if field.is_empty() || !digits || field.len() > 1 && field[0] == b'0' {
        return None;
    }
    std::str::from_utf8(field).ok()?.parse().ok()
}

/// The same with a minus allowed before a non-zero number, within signed 32 bits.
fn signed(field: &[u8]) -> Option<i32> {
    match field.strip_prefix(b"-") {
        None => unsigned(field)?.try_into().ok(),
        Some(b"0") => None,
        Some(magnitude) => i32::try_from(-i64::from(unsigned(magnitude)?)).ok(),
    }
}
