//! The calls of the library that ships, crate heatherplane's, linked from its static archive; and what crate starfile_tests exports, which
//! no host needs.

use model::tray::Report;
use model::{Buffers, Call, Growth, Implementation, Kind, Outcome, Parameters, Record, Refused};
use std::sync::OnceLock;

/// The requests of document 02 that have landed in the library.
pub const LANDED: &[u32] = &[1, 2, 3, 4, 5, 6, 7, 8, 9, 10, 11, 12, 13, 14];

pub const LIBRARY: Implementation = Implementation { run, landed: LANDED, missing: &[] };

/// The calls that crate growth_record has, whose functions update a lent growth record.
pub const RECORD_KINDS: [Kind; 4] = [Kind::Grow, Kind::Shrink, Kind::Open, Kind::Step];

pub const RECORD_CALLS: Implementation = Implementation { run: run_on_record, ..LIBRARY };

/// include/heatherplane.h's growth record and reply.
#[repr(C)]
struct CRecord {
    expansions: u32,
    expanded: u32,
    open: u32,
    steps: u32,
}

impl CRecord {
    fn of(record: &Record) -> CRecord {
        let Record { growth: Growth { expansions, expanded }, open, steps } = *record;
        CRecord { expansions, expanded, open: open.into(), steps }
    }
}

#[repr(C)]
struct Reply {
    refusal: u32,
    page: u32,
    place: u32,
    ra: u32,
    dec: i32,
    found: bool,
    due: bool,
    stars: u32,
    growth: CRecord,
}

impl Reply {
    fn outcome(self) -> Outcome {
        let Reply { refusal, page, place, ra, dec, found, due, stars, growth } = self;
        let CRecord { expansions, expanded, open, steps } = growth;
        let record = Record { growth: Growth { expansions, expanded }, open: open != 0, steps };
        let (found, due) = (found.into(), due.into());
        Outcome { refusal, page, place, found, ra, dec, due, stars, record, ..Outcome::default() }
    }
}

/// What the functions of crate growth_record answer, with the record that they leave.
#[repr(C)]
struct RecordReply {
    refusal: u32,
    page: u32,
    place: u32,
    record: Record,
}

/// What adding a report and a filing answer.
#[repr(C)]
struct Added {
    refusal: u32,
    count: u32,
}

#[repr(C)]
struct Filed {
    refusal: u32,
    page: u32,
    place: u32,
    filed: u32,
    count: u32,
}

#[repr(C)]
struct Bits {
    refusal: u32,
    bits: u32,
}

/// Calls a function of a library by the parts that it takes, in their order, with those of a call and of the lent buffers. Each slice is
/// a pointer and a length in items.
macro_rules! c {
    ($exports:ident, $call:ident, $lent:ident -> $reply:ident: $($part:ident)*) => {
        c!(@ $exports $reply $call $lent [] [] $($part)*)
    };
    (@ $exports:ident $reply:ident $call:ident $lent:ident [$($type:ty,)*] [$($value:expr,)*]) => {
        // SAFETY: the address is that of a function which takes these; each pointer and length is that of a vector of its own, which
        // lives through the call.
        unsafe {
            let address = $exports.addresses[$call.kind as usize].expect("the library has the call");
            std::mem::transmute::<Address, unsafe extern "C" fn($($type),*) -> $reply>(address)($($value),*)
        }
    };
    // Parameters and record as structs by value, as crate starfile_tests takes them, and libraries before version 0.9 did.
    (@ $exports:ident $reply:ident $call:ident $lent:ident [$($t:tt)*] [$($v:tt)*] parameters_struct $($rest:ident)*) => {
        c!(@ $exports $reply $call $lent [$($t)* Parameters,] [$($v)* $call.parameters,] $($rest)*)
    };
    (@ $exports:ident $reply:ident $call:ident $lent:ident [$($t:tt)*] [$($v:tt)*] record_struct $($rest:ident)*) => {
        c!(@ $exports $reply $call $lent [$($t)* Record,] [$($v)* $call.record,] $($rest)*)
    };
    // As the tray's calls take them.
    (@ $exports:ident $reply:ident $call:ident $lent:ident [$($t:tt)*] [$($v:tt)*] values $($rest:ident)*) => {
        c!(@ $exports $reply $call $lent [$($t)* Parameters, CRecord,] [$($v)* $call.parameters, CRecord::of(&$call.record),] $($rest)*)
    };
    (@ $exports:ident $reply:ident $call:ident $lent:ident [$($t:tt)*] [$($v:tt)*] new_structs $($rest:ident)*) => {
        c!(@ $exports $reply $call $lent [$($t)* Parameters, Record,] [$($v)* $call.new_parameters, $call.new_record,] $($rest)*)
    };
    (@ $exports:ident $reply:ident $call:ident $lent:ident [$($t:tt)*] [$($v:tt)*] parameters $($rest:ident)*) => {
        c!(@ $exports $reply $call $lent [$($t)* u32, u32, u32, u32, u32, u32, u32, u32,] [$($v)*
            $call.parameters.places, $call.parameters.groups, $call.parameters.width, $call.parameters.step,
            $call.parameters.bits, $call.parameters.load, $call.parameters.pages, $call.parameters.multiplier,
        ] $($rest)*)
    };
    (@ $exports:ident $reply:ident $call:ident $lent:ident [$($t:tt)*] [$($v:tt)*] record $($rest:ident)*) => {
        c!(@ $exports $reply $call $lent [$($t)* u32, u32, u32, u32,] [$($v)*
            $call.record.growth.expansions, $call.record.growth.expanded, $call.record.open.into(), $call.record.steps,
        ] $($rest)*)
    };
    (@ $exports:ident $reply:ident $call:ident $lent:ident [$($t:tt)*] [$($v:tt)*] new $($rest:ident)*) => {
        c!(@ $exports $reply $call $lent [$($t)* u32, u32, u32, u32, u32, u32, u32, u32, u32, u32, u32, u32,] [$($v)*
            $call.new_parameters.places, $call.new_parameters.groups, $call.new_parameters.width, $call.new_parameters.step,
            $call.new_parameters.bits, $call.new_parameters.load, $call.new_parameters.pages, $call.new_parameters.multiplier,
            $call.new_record.growth.expansions, $call.new_record.growth.expanded, $call.new_record.open.into(),
            $call.new_record.steps,
        ] $($rest)*)
    };
    (@ $exports:ident $reply:ident $call:ident $lent:ident [$($t:tt)*] [$($v:tt)*] read $($rest:ident)*) => {
        c!(@ $exports $reply $call $lent [$($t)* *const u8, usize, *const u32, usize, *const u64, usize, *const u8, usize,] [$($v)*
            $lent.file.separators.as_ptr(), $lent.file.separators.len(), $lent.file.numbers.as_ptr(), $lent.file.numbers.len(),
            $lent.file.words.as_ptr(), $lent.file.words.len(), $lent.file.owners.as_ptr(), $lent.file.owners.len(),
        ] $($rest)*)
    };
    // A change writes words alone.
    (@ $exports:ident $reply:ident $call:ident $lent:ident [$($t:tt)*] [$($v:tt)*] changed $($rest:ident)*) => {
        c!(@ $exports $reply $call $lent [$($t)* *const u8, usize, *const u32, usize, *mut u64, usize, *const u8, usize,] [$($v)*
            $lent.file.separators.as_ptr(), $lent.file.separators.len(), $lent.file.numbers.as_ptr(), $lent.file.numbers.len(),
            $lent.file.words.as_mut_ptr(), $lent.file.words.len(), $lent.file.owners.as_ptr(), $lent.file.owners.len(),
        ] $($rest)*)
    };
    (@ $exports:ident $reply:ident $call:ident $lent:ident $t:tt $v:tt written $($rest:ident)*) => {
        c!(@ $exports $reply $call $lent $t $v pages file $($rest)*)
    };
    (@ $exports:ident $reply:ident $call:ident $lent:ident $t:tt $v:tt second $($rest:ident)*) => {
        c!(@ $exports $reply $call $lent $t $v pages second $($rest)*)
    };
    (@ $exports:ident $reply:ident $call:ident $lent:ident [$($t:tt)*] [$($v:tt)*] pages $set:ident $($rest:ident)*) => {
        c!(@ $exports $reply $call $lent [$($t)* *mut u8, usize, *mut u32, usize, *mut u64, usize, *mut u8, usize,] [$($v)*
            $lent.$set.separators.as_mut_ptr(), $lent.$set.separators.len(),
            $lent.$set.numbers.as_mut_ptr(), $lent.$set.numbers.len(),
            $lent.$set.words.as_mut_ptr(), $lent.$set.words.len(),
            $lent.$set.owners.as_mut_ptr(), $lent.$set.owners.len(),
        ] $($rest)*)
    };
    (@ $exports:ident $reply:ident $call:ident $lent:ident [$($t:tt)*] [$($v:tt)*] pool $($rest:ident)*) => {
        c!(@ $exports $reply $call $lent [$($t)* *mut u32, usize, *mut u64, usize, *mut u8, usize,] [$($v)*
            $lent.pool_numbers.as_mut_ptr(), $lent.pool_numbers.len(), $lent.pool_words.as_mut_ptr(), $lent.pool_words.len(),
            $lent.pool_owners.as_mut_ptr(), $lent.pool_owners.len(),
        ] $($rest)*)
    };
    (@ $exports:ident $reply:ident $call:ident $lent:ident [$($t:tt)*] [$($v:tt)*] out $($rest:ident)*) => {
        c!(@ $exports $reply $call $lent [$($t)* *mut u8, usize,] [$($v)* $lent.table.as_mut_ptr(), $lent.table.len(),] $($rest)*)
    };
    (@ $exports:ident $reply:ident $call:ident $lent:ident [$($t:tt)*] [$($v:tt)*] given $($rest:ident)*) => {
        c!(@ $exports $reply $call $lent [$($t)* *const u8, usize,] [$($v)* $lent.table.as_ptr(), $lent.table.len(),] $($rest)*)
    };
    (@ $exports:ident $reply:ident $call:ident $lent:ident [$($t:tt)*] [$($v:tt)*] tray $($rest:ident)*) => {
        c!(@ $exports $reply $call $lent [$($t)* *mut Report, usize, u32, *mut u64, usize,] [$($v)*
            $lent.tray.reports.as_mut_ptr(), $lent.tray.reports.len(), $lent.tray.count,
            $lent.tray.filter.as_mut_ptr(), $lent.tray.filter.len(),
        ] $($rest)*)
    };
    (@ $exports:ident $reply:ident $call:ident $lent:ident [$($t:tt)*] [$($v:tt)*] read_tray $($rest:ident)*) => {
        c!(@ $exports $reply $call $lent [$($t)* *const Report, usize, u32, *const u64, usize,] [$($v)*
            $lent.tray.reports.as_ptr(), $lent.tray.reports.len(), $lent.tray.count,
            $lent.tray.filter.as_ptr(), $lent.tray.filter.len(),
        ] $($rest)*)
    };
    (@ $exports:ident $reply:ident $call:ident $lent:ident [$($t:tt)*] [$($v:tt)*] report $($rest:ident)*) => {
        c!(@ $exports $reply $call $lent [$($t)* Report,] [$($v)*
            Report { number: $call.number, ra: $call.ra, dec: $call.dec, owner: $call.caller, removed: $call.removed },
        ] $($rest)*)
    };
    (@ $exports:ident $reply:ident $call:ident $lent:ident [$($t:tt)*] [$($v:tt)*] caller $($rest:ident)*) => {
        c!(@ $exports $reply $call $lent [$($t)* u8,] [$($v)* $call.caller,] $($rest)*)
    };
    (@ $exports:ident $reply:ident $call:ident $lent:ident [$($t:tt)*] [$($v:tt)*] number $($rest:ident)*) => {
        c!(@ $exports $reply $call $lent [$($t)* u32,] [$($v)* $call.number,] $($rest)*)
    };
    (@ $exports:ident $reply:ident $call:ident $lent:ident [$($t:tt)*] [$($v:tt)*] position $($rest:ident)*) => {
        c!(@ $exports $reply $call $lent [$($t)* u32, i32,] [$($v)* $call.ra, $call.dec,] $($rest)*)
    };
    (@ $exports:ident $reply:ident $call:ident $lent:ident [$($t:tt)*] [$($v:tt)*] stores $($rest:ident)*) => {
        c!(@ $exports $reply $call $lent [$($t)* u32,] [$($v)* $call.stores,] $($rest)*)
    };
}

#[rustfmt::skip]
extern "C" {
    fn heatherplane_mark_changed(
        places: u32, groups: u32, width: u32, step: u32, bits: u32, load: u32, pages: u32, multiplier: u32,
        expansions: u32, expanded: u32,
        old: *const u8, old_length: usize,
        new: *const u8, new_length: usize,
        marks: *mut u8, marks_length: usize,
    ) -> u32;
    fn heatherplane_filter_bits(filter: *const u64, filter_length: usize) -> Bits;
    fn sft_scrambled(multiplier: u32, j: usize, number: u32) -> u32;
    fn sft_rank(step: u32, count: u32, group: u32) -> u32;
    fn sft_record_grow();
    fn sft_record_shrink();
    fn sft_record_open_growth();
    fn sft_record_step_growth();
}

/// Marks the pages that a growth may have altered; the refusal, if any.
pub fn mark_changed(p: &Parameters, growth: &Growth, old: &[u8], new: &[u8], marks: &mut [u8]) -> u32 {
    let Parameters { places, groups, width, step, bits, load, pages, multiplier } = *p;
    let Growth { expansions, expanded } = *growth;
    let (old, old_length, new, new_length) = (old.as_ptr(), old.len(), new.as_ptr(), new.len());
    let (marks, marks_length) = (marks.as_mut_ptr(), marks.len());
    // SAFETY: each pointer and length is that of a slice which lives through the call.
    unsafe {
        heatherplane_mark_changed(
            places,
            groups,
            width,
            step,
            bits,
            load,
            pages,
            multiplier,
            expansions,
            expanded,
            old,
            old_length,
            new,
            new_length,
            marks,
            marks_length,
        )
    }
}

/// The refusal, if any, and how many bits of a filter are set.
pub fn filter_bits(filter: &[u64]) -> (u32, u32) {
    // SAFETY: pointer and length are those of a slice which lives through the call.
    let Bits { refusal, bits } = unsafe { heatherplane_filter_bits(filter.as_ptr(), filter.len()) };
    (refusal, bits)
}

/// Xj(K) under a multiplier, 0 unless it is one of the two and j is from 1 to 2,049.
pub fn x(multiplier: u32, j: u64, number: u64) -> u64 {
    // SAFETY: the library takes any numbers.
    unsafe { sft_scrambled(multiplier, j as usize, number as u32) }.into()
}

/// The rank of a group among `groups` groups, 0 unless both are possible.
pub fn rank(step: u64, groups: u64, group: u64) -> u64 {
    // SAFETY: the library takes any numbers.
    unsafe { sft_rank(step as u32, groups as u32, group as u32) }.into()
}

type Address = unsafe extern "C" fn();

/// How a library takes parameters and record, and answers.
#[derive(Clone, Copy, PartialEq, Eq)]
enum Form {
    /// As include/heatherplane.h declares it.
    Numbers,
    /// The same without a record in the reply, as crate starfile_c exported four calls for C before version 0.9.
    FirstNumbers,
    /// As crate starfile_tests exported all calls before.
    Structs,
}

/// The functions of a library.
pub struct Exports {
    forms: [Form; Kind::ALL.len()],
    addresses: [Option<Address>; Kind::ALL.len()],
}

/// What follows `heatherplane_` and, in older libraries, `sft_`.
const NAMES: [(Kind, &str, &str); 22] = [
    (Kind::Make, "make", "make"),
    (Kind::LookUp, "look_up", "look_up"),
    (Kind::Enter, "enter", "enter"),
    (Kind::Cascade, "cascade", "cascade"),
    (Kind::Change, "change", "change"),
    (Kind::Remove, "remove", "remove"),
    (Kind::Grow, "grow", "grow"),
    (Kind::Shrink, "shrink", "shrink"),
    (Kind::Due, "due", "due"),
    (Kind::Check, "check", "check"),
    (Kind::Open, "open_growth", "open"),
    (Kind::Step, "step_growth", "step"),
    (Kind::EnterStopped, "enter_stopped", "enter_stopped"),
    (Kind::ChangeStopped, "change_stopped", "change_stopped"),
    (Kind::RemoveStopped, "remove_stopped", "remove_stopped"),
    (Kind::Mend, "mend", "mend"),
    (Kind::Write, "write_table", "write"),
    (Kind::Read, "read_table", "read"),
    (Kind::Carry, "carry", "carry"),
    (Kind::Report, "add_report", "add_report"),
    (Kind::Combined, "look_up_with_tray", "look_up_with_tray"),
    (Kind::Filing, "file_reports", "file_reports"),
];

impl Exports {
    /// Those of a library that tells its functions' addresses by name; none if it has no look-up.
    ///
    /// # Safety
    /// A name of the header, or of crate starfile_tests before version 0.9, has that function's address.
    pub unsafe fn find(address: impl Fn(&str) -> Option<Address>) -> Option<Exports> {
        let older = address("sft_look_up").is_some();
        if !older && address("heatherplane_look_up").is_none() {
            return None;
        }
        let mut exports = Exports { forms: [Form::Numbers; Kind::ALL.len()], addresses: [None; Kind::ALL.len()] };
        for (kind, name, structs) in NAMES {
            let (form, found) = match (older, address(&format!("heatherplane_{name}"))) {
                (false, numbers) => (Form::Numbers, numbers),
                (true, Some(numbers)) => (Form::FirstNumbers, Some(numbers)),
                (true, None) => (Form::Structs, address(&format!("sft_{structs}"))),
            };
            exports.forms[kind as usize] = form;
            exports.addresses[kind as usize] = found;
        }
        Some(exports)
    }

    pub fn has(&self, kind: Kind) -> bool {
        self.addresses[kind as usize].is_some()
    }

    /// Runs one call.
    pub fn run(&self, call: &Call, lent: &mut Buffers) -> Outcome {
        let outcome = match self.forms[call.kind as usize] {
            _ if call.kind == Kind::Report => return add_report(self, call, lent),
            _ if call.kind == Kind::Filing => return file_reports(self, call, lent),
            Form::Numbers => numbers(self, call, lent).outcome(),
            Form::FirstNumbers => first_numbers(self, call, lent).outcome(call.record),
            Form::Structs => structs(self, call, lent).outcome(),
        };
        match call.kind {
            Kind::Write => Outcome { length: outcome.stars, stars: 0, ..outcome },
            // A carrying answers the new file's record, which it leaves as lent; the old file's is only read.
            Kind::Carry => {
                assert_eq!(outcome.record, call.new_record, "a carrying changed the new file's record");
                Outcome { record: call.record, ..outcome }
            }
            _ => outcome,
        }
    }
}

fn numbers(e: &Exports, call: &Call, lent: &mut Buffers) -> Reply {
    match call.kind {
        Kind::Make => c!(e, call, lent -> Reply: parameters written),
        Kind::LookUp => c!(e, call, lent -> Reply: parameters record read number),
        Kind::Enter | Kind::Cascade => {
            c!(e, call, lent -> Reply: parameters record written pool caller number position)
        }
        Kind::Change => c!(e, call, lent -> Reply: parameters record changed caller number position),
        Kind::Remove => c!(e, call, lent -> Reply: parameters record written pool caller number),
        Kind::Grow | Kind::Shrink | Kind::Mend => c!(e, call, lent -> Reply: parameters record written pool),
        Kind::Due => c!(e, call, lent -> Reply: parameters record read),
        Kind::Check => c!(e, call, lent -> Reply: parameters record read pool),
        Kind::Open | Kind::Step => c!(e, call, lent -> Reply: parameters record read second pool),
        Kind::EnterStopped => c!(e, call, lent -> Reply: parameters record written pool caller number position stores),
        Kind::ChangeStopped => c!(e, call, lent -> Reply: parameters record changed caller number position stores),
        Kind::RemoveStopped => c!(e, call, lent -> Reply: parameters record written pool caller number stores),
        Kind::Write => c!(e, call, lent -> Reply: parameters record read out),
        Kind::Read => c!(e, call, lent -> Reply: parameters record written pool given),
        Kind::Carry => c!(e, call, lent -> Reply: parameters record read new second pool),
        Kind::Combined => c!(e, call, lent -> Reply: values read read_tray number),
        kind => panic!("the library has no {}", kind.name()),
    }
}

fn add_report(e: &Exports, call: &Call, lent: &mut Buffers) -> Outcome {
    let Added { refusal, count } = c!(e, call, lent -> Added: values tray report);
    lent.tray.count = count;
    Outcome { refusal, record: call.record, ..Outcome::default() }
}

/// The filing's own refusals are 1, 2 and 16; any other is that of the report at which it stopped.
fn file_reports(e: &Exports, call: &Call, lent: &mut Buffers) -> Outcome {
    let Filed { refusal, page, place, filed, count } = c!(e, call, lent -> Filed: values written pool tray);
    lent.tray.count = count;
    let none = Outcome { filed, record: call.record, ..Outcome::default() };
    match refusal {
        1 | 2 | 16 => Outcome { refusal, page, place, ..none },
        _ => Outcome { inner: Refused { refusal, page, place }, ..none },
    }
}

/// What the four functions of crate starfile_c answered; none of them changes the record.
#[repr(C)]
struct FirstReply {
    refusal: u32,
    page: u32,
    place: u32,
    ra: u32,
    dec: i32,
    found: bool,
}

impl FirstReply {
    fn outcome(self, record: Record) -> Outcome {
        let FirstReply { refusal, page, place, ra, dec, found } = self;
        Outcome { refusal, page, place, found: found.into(), ra, dec, record, ..Outcome::default() }
    }
}

fn first_numbers(e: &Exports, call: &Call, lent: &mut Buffers) -> FirstReply {
    match call.kind {
        Kind::LookUp => c!(e, call, lent -> FirstReply: parameters record read number),
        Kind::Enter | Kind::Cascade => {
            c!(e, call, lent -> FirstReply: parameters record written pool caller number position)
        }
        Kind::Remove => c!(e, call, lent -> FirstReply: parameters record written pool caller number),
        kind => panic!("an older library has no {} for C", kind.name()),
    }
}

/// What an older library answers.
#[repr(C)]
struct OlderReply {
    refusal: u32,
    page: u32,
    place: u32,
    found: u32,
    ra: u32,
    dec: i32,
    due: u32,
    stars: u32,
    record: Record,
}

impl OlderReply {
    fn outcome(self) -> Outcome {
        let OlderReply { refusal, page, place, found, ra, dec, due, stars, record } = self;
        Outcome { refusal, page, place, found, ra, dec, due, stars, record, ..Outcome::default() }
    }
}

fn structs(e: &Exports, call: &Call, lent: &mut Buffers) -> OlderReply {
    match call.kind {
        Kind::Make => c!(e, call, lent -> OlderReply: parameters_struct written),
        Kind::LookUp => c!(e, call, lent -> OlderReply: parameters_struct record_struct read number),
        Kind::Enter | Kind::Cascade => {
            c!(e, call, lent -> OlderReply: parameters_struct record_struct written pool caller number position)
        }
        Kind::Change => c!(e, call, lent -> OlderReply: parameters_struct record_struct changed caller number position),
        Kind::Remove => c!(e, call, lent -> OlderReply: parameters_struct record_struct written pool caller number),
        Kind::Grow | Kind::Shrink | Kind::Mend => {
            c!(e, call, lent -> OlderReply: parameters_struct record_struct written pool)
        }
        Kind::Due => c!(e, call, lent -> OlderReply: parameters_struct record_struct read),
        Kind::Check => c!(e, call, lent -> OlderReply: parameters_struct record_struct read pool),
        Kind::Open | Kind::Step => c!(e, call, lent -> OlderReply: parameters_struct record_struct read second pool),
        Kind::Write => c!(e, call, lent -> OlderReply: parameters_struct record_struct read out),
        Kind::Read => c!(e, call, lent -> OlderReply: parameters_struct record_struct written pool given),
        Kind::Carry => c!(e, call, lent -> OlderReply: parameters_struct record_struct read new_structs second pool),
        kind => panic!("an older library is not asked for {}", kind.name()),
    }
}

/// Declares functions of the linked library, and finds their addresses.
macro_rules! linked_functions {
    ($($name:ident)*) => {
        extern "C" {
            $(fn $name();)*
        }
        fn linked_address(name: &str) -> Option<Address> {
            $(if name == stringify!($name) {
                return Some($name);
            })*
            None
        }
    };
}

linked_functions! {
    heatherplane_make heatherplane_look_up heatherplane_enter heatherplane_cascade heatherplane_change heatherplane_remove
    heatherplane_grow heatherplane_shrink heatherplane_due heatherplane_check heatherplane_open_growth heatherplane_step_growth
    heatherplane_enter_stopped heatherplane_change_stopped heatherplane_remove_stopped heatherplane_mend
    heatherplane_write_table heatherplane_read_table heatherplane_carry heatherplane_add_report
    heatherplane_look_up_with_tray heatherplane_file_reports
}

/// The library that is linked.
pub fn linked() -> &'static Exports {
    static LINKED: OnceLock<Exports> = OnceLock::new();
    // SAFETY: the names are those of the functions themselves.
    LINKED.get_or_init(|| unsafe { Exports::find(linked_address) }.expect("the library is linked"))
}

/// Runs one call of the linked library.
pub fn run(call: &Call, lent: &mut Buffers) -> Outcome {
    linked().run(call, lent)
}

/// Runs one of crate growth_record's four functions on a copy of the call's record, and answers what it left of it.
pub fn run_on_record(call: &Call, lent: &mut Buffers) -> Outcome {
    let mut addresses = [None; Kind::ALL.len()];
    addresses[Kind::Grow as usize] = Some(sft_record_grow as Address);
    addresses[Kind::Shrink as usize] = Some(sft_record_shrink as Address);
    addresses[Kind::Open as usize] = Some(sft_record_open_growth as Address);
    addresses[Kind::Step as usize] = Some(sft_record_step_growth as Address);
    let e = Exports { forms: [Form::Structs; Kind::ALL.len()], addresses };
    let RecordReply { refusal, page, place, record } = match call.kind {
        Kind::Grow | Kind::Shrink => c!(e, call, lent -> RecordReply: parameters_struct record_struct written pool),
        _ => c!(e, call, lent -> RecordReply: parameters_struct record_struct read second pool),
    };
    Outcome { refusal, page, place, record, ..Outcome::default() }
}
