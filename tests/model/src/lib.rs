//! A model of the star file, written from documents 01 and 02 alone: slow, literal and short.

pub mod backup;
mod calls;
pub mod files;
pub mod fits;
pub mod hashing;
pub mod hdu;
pub mod placement;
pub mod points;
pub mod random;
pub mod session;
pub mod starline;
pub mod tray;
pub mod vectors;

pub use calls::run;
use hashing::MULTIPLIERS;
use placement::Star;
use tray::Tray;

/// The requests of document 02 that the model follows.
pub const LANDED: &[u32] = &[1, 2, 3, 4, 5, 6, 7, 8, 9, 10, 11, 12, 13, 14];

/// Of a star.
pub const HIGHEST_NUMBER: u32 = 2_147_483_646;

pub const MODEL: Implementation = Implementation { run, landed: LANDED, missing: &[] };

/// The documents' b, N, n0, s, k, A and M, and the generator's multiplier.
#[repr(C)]
#[derive(Clone, Copy, Debug, PartialEq, Eq)]
pub struct Parameters {
    pub places: u32,
    pub groups: u32,
    pub width: u32,
    pub step: u32,
    pub bits: u32,
    pub load: u32,
    pub pages: u32,
    pub multiplier: u32,
}

/// The document's e and x.
#[repr(C)]
#[derive(Clone, Copy, Debug, Default, PartialEq, Eq)]
pub struct Growth {
    pub expansions: u32,
    pub expanded: u32,
}

/// The growth record that a caller keeps with a file: (e, x), whether a growth is open, and how many of its steps are done.
#[repr(C)]
#[derive(Clone, Copy, Debug, Default, PartialEq, Eq)]
pub struct Record {
    pub growth: Growth,
    pub open: bool,
    pub steps: u32,
}

/// What a call answers, and the growth record after it.
#[derive(Clone, Copy, Debug, Default, PartialEq, Eq)]
pub struct Outcome {
    pub refusal: u32,
    pub page: u32,
    pub place: u32,
    pub found: u32,
    pub ra: u32,
    pub dec: i32,
    pub due: u32,
    pub stars: u32,
    /// How many bytes a table written has.
    pub length: u32,
    /// How many reports a filing filed, and the refusal at which it stopped.
    pub filed: u32,
    pub inner: Refused,
    pub record: Record,
}

/// A refusal with its page and place, or zeros.
#[derive(Clone, Copy, Debug, Default, PartialEq, Eq)]
pub struct Refused {
    pub refusal: u32,
    pub page: u32,
    pub place: u32,
}

/// A file's four buffers.
#[derive(Clone, Debug, Default, PartialEq, Eq)]
pub struct Pages {
    pub separators: Vec<u8>,
    pub numbers: Vec<u32>,
    pub words: Vec<u64>,
    pub owners: Vec<u8>,
}

/// The lent buffers: the file's, the pool's three, the second set of pages into which a growth is opened or a file is carried,
/// the tray, and the bytes of a table.
#[derive(Clone, Debug, Default, PartialEq, Eq)]
pub struct Buffers {
    pub file: Pages,
    pub pool_numbers: Vec<u32>,
    pub pool_words: Vec<u64>,
    pub pool_owners: Vec<u8>,
    pub second: Pages,
    pub tray: Tray,
    pub table: Vec<u8>,
}

#[derive(Clone, Copy, Debug, PartialEq, Eq)]
pub enum Kind {
    Make,
    LookUp,
    Enter,
    Change,
    Remove,
    Grow,
    Shrink,
    Due,
    Check,
    Cascade,
    Open,
    Step,
    EnterStopped,
    ChangeStopped,
    RemoveStopped,
    Mend,
    Write,
    Read,
    Carry,
    Report,
    Combined,
    Filing,
}

impl Kind {
    pub const ALL: [Kind; 22] = [
        Kind::Make,
        Kind::LookUp,
        Kind::Enter,
        Kind::Change,
        Kind::Remove,
        Kind::Grow,
        Kind::Shrink,
        Kind::Due,
        Kind::Check,
        Kind::Cascade,
        Kind::Open,
        Kind::Step,
        Kind::EnterStopped,
        Kind::ChangeStopped,
        Kind::RemoveStopped,
        Kind::Mend,
        Kind::Write,
        Kind::Read,
        Kind::Carry,
        Kind::Report,
        Kind::Combined,
        Kind::Filing,
    ];
    pub const ENTRIES: [Kind; 2] = [Kind::Enter, Kind::Cascade];

    #[rustfmt::skip]
    pub fn name(self) -> &'static str {
        let names = [
            "make", "look_up", "enter", "change", "remove", "grow", "shrink", "due", "check", "cascade", "open", "step",
            "enter_stopped", "change_stopped", "remove_stopped", "mend", "write", "read", "carry", "report", "combined", "filing",
        ];
        names[self as usize]
    }

    /// The request of document 02 that asks for the call, or 0 for document 01.
    pub fn request(self) -> u32 {
        match self {
            Kind::Shrink => 1,
            Kind::Cascade => 9,
            Kind::Open | Kind::Step => 13,
            Kind::EnterStopped | Kind::ChangeStopped | Kind::RemoveStopped | Kind::Mend => 12,
            Kind::Write | Kind::Read => 6,
            Kind::Carry => 8,
            Kind::Report | Kind::Combined | Kind::Filing => 11,
            _ => 0,
        }
    }

    pub fn enters(self) -> bool {
        Kind::ENTRIES.contains(&self)
    }

    /// The call that a stopped form stops.
    pub fn stops(self) -> Option<Kind> {
        match self {
            Kind::EnterStopped => Some(Kind::Enter),
            Kind::ChangeStopped => Some(Kind::Change),
            Kind::RemoveStopped => Some(Kind::Remove),
            _ => None,
        }
    }

    pub fn takes_file(self) -> bool {
        self != Kind::Report
    }

    pub fn takes_pool(self) -> bool {
        let all_pages =
            matches!(self, Kind::Grow | Kind::Shrink | Kind::Check | Kind::Mend | Kind::Read | Kind::Filing);
        let plain = self.stops().unwrap_or(self);
        plain.enters() || plain == Kind::Remove || self.takes_second() || all_pages
    }

    pub fn takes_second(self) -> bool {
        matches!(self, Kind::Open | Kind::Step | Kind::Carry)
    }

    pub fn takes_tray(self) -> bool {
        matches!(self, Kind::Report | Kind::Combined | Kind::Filing)
    }

    pub fn takes_table(self) -> bool {
        matches!(self, Kind::Write | Kind::Read)
    }

    /// Whether the kind writes the file or opens a growth, and so must wait while one is open; making a file need not.
    pub fn waits(self) -> bool {
        let plain = self.stops().unwrap_or(self);
        let all_pages = matches!(self, Kind::Grow | Kind::Shrink | Kind::Open | Kind::Mend | Kind::Read | Kind::Filing);
        plain.enters() || matches!(plain, Kind::Change | Kind::Remove) || all_pages
    }

    pub fn takes_number(self) -> bool {
        let plain = self.stops().unwrap_or(self);
        let looks_up = matches!(self, Kind::LookUp | Kind::Combined | Kind::Report);
        plain.enters() || matches!(plain, Kind::Change | Kind::Remove) || looks_up
    }

    pub fn takes_position(self) -> bool {
        let plain = self.stops().unwrap_or(self);
        plain.enters() || matches!(plain, Kind::Change | Kind::Report)
    }
}

/// One call without its buffers. A field that the kind does not take is ignored.
#[derive(Clone, Copy, Debug)]
pub struct Call {
    pub kind: Kind,
    pub parameters: Parameters,
    pub record: Record,
    /// 0 for the institute, 1 to 255 for observers.
    pub caller: u8,
    pub number: u32,
    pub ra: u32,
    pub dec: i32,
    /// A report's mark for "removed": any number but 0.
    pub removed: u8,
    /// After how many stores a stopped form stops.
    pub stores: u32,
    /// The new file's, of a carrying.
    pub new_parameters: Parameters,
    pub new_record: Record,
}

/// The model's calls or another's, and the requests of document 02 that have landed there.
#[derive(Clone, Copy)]
pub struct Implementation {
    pub run: fn(&Call, &mut Buffers) -> Outcome,
    pub landed: &'static [u32],
    /// The calls of these requests that are not there yet.
    pub missing: &'static [Kind],
}

impl Implementation {
    /// The calls that it has.
    pub fn kinds(&self) -> Vec<Kind> {
        Kind::ALL.into_iter().filter(|&kind| self.has(kind)).collect()
    }

    pub fn has(&self, kind: Kind) -> bool {
        let landed = kind.request() == 0 || self.landed.contains(&kind.request());
        landed && !self.missing.contains(&kind)
    }
}

impl Parameters {
    /// In document 01's order, b, N, n0, s, k, A, M, and with its multiplier.
    pub fn new(list: [u32; 7]) -> Parameters {
        let [places, groups, width, step, bits, load, pages] = list;
        Parameters { places, groups, width, step, bits, load, pages, multiplier: MULTIPLIERS[0] }
    }

    /// The same under another multiplier.
    pub fn under(self, multiplier: u32) -> Parameters {
        Parameters { multiplier, ..self }
    }

    /// The same under the other multiplier.
    pub fn carried(self) -> Parameters {
        let [first, second] = MULTIPLIERS;
        self.under(if self.multiplier == first { second } else { first })
    }

    /// All eight, the multiplier last.
    pub fn from_list([first @ .., multiplier]: [u32; 8]) -> Parameters {
        Parameters::new(first).under(multiplier)
    }

    pub fn list(&self) -> [u32; 8] {
        let Parameters { places, groups, width, step, bits, load, pages, multiplier } = *self;
        [places, groups, width, step, bits, load, pages, multiplier]
    }

    /// 2^k − 1, the greatest separator.
    pub fn top(&self) -> u64 {
        (1 << self.bits) - 1
    }

    /// How many stars the pages hold together.
    pub fn items(&self) -> usize {
        (self.pages * self.places) as usize
    }
}

impl Record {
    /// With no growth open.
    pub fn closed(growth: Growth) -> Record {
        Record { growth, open: false, steps: 0 }
    }
}

impl Call {
    /// With zeros for all else; a carrying is to a file like this one under the other multiplier.
    pub fn new(kind: Kind, parameters: Parameters, record: Record) -> Call {
        let (new_parameters, new_record) = (parameters.carried(), Record::closed(record.growth));
        let (caller, number, ra, dec, removed, stores) = (0, 0, 0, 0, 0, 0);
        Call { kind, parameters, record, caller, number, ra, dec, removed, stores, new_parameters, new_record }
    }

    /// Whether a growth is open that the call has to wait for, or none for a step.
    pub fn out_of_turn(&self) -> bool {
        match self.kind {
            Kind::Step => !self.record.open,
            Kind::Carry => self.new_record.open,
            kind => self.record.open && kind.waits(),
        }
    }

    /// The parameters of the second set and the pool.
    pub fn second_parameters(&self) -> &Parameters {
        if self.kind == Kind::Carry {
            &self.new_parameters
        } else {
            &self.parameters
        }
    }

    /// The caller's growth record after the call: a refused make has none to give.
    pub fn record_after(&self, outcome: &Outcome) -> Record {
        if self.kind == Kind::Make && outcome.refusal != 0 {
            self.record
        } else {
            outcome.record
        }
    }
}

impl Buffers {
    /// Buffers of the right lengths, all zeros.
    pub fn zeros(parameters: &Parameters) -> Buffers {
        let items = parameters.items();
        Buffers {
            file: Pages::zeros(parameters),
            pool_numbers: vec![0; items],
            pool_words: vec![0; items],
            pool_owners: vec![0; items],
            second: Pages::zeros(parameters),
            tray: Tray::zeros(),
            table: Vec::new(),
        }
    }
}

impl Pages {
    /// Of the right lengths, all zeros.
    pub fn zeros(parameters: &Parameters) -> Pages {
        let items = parameters.items();
        Pages {
            separators: vec![0; parameters.pages as usize],
            numbers: vec![0; items],
            words: vec![0; items],
            owners: vec![0; items],
        }
    }

    /// Empty pages with separator 2^k − 1.
    pub fn empty(parameters: &Parameters) -> Pages {
        let separators = vec![parameters.top() as u8; parameters.pages as usize];
        Pages { separators, ..Pages::zeros(parameters) }
    }

    /// Whether they have the lengths that the parameters ask.
    pub fn fit(&self, parameters: &Parameters) -> bool {
        self.separators.len() == parameters.pages as usize
            && [self.numbers.len(), self.words.len(), self.owners.len()] == [parameters.items(); 3]
    }

    /// The pages whose places differ in others.
    pub fn changed_pages(&self, parameters: &Parameters, other: &Pages) -> Vec<usize> {
        let places = parameters.places as usize;
        let same = |item: usize| self.star(item) == other.star(item);
        let changed = |&page: &usize| !(page * places..(page + 1) * places).all(same);
        (0..parameters.pages as usize).filter(changed).collect()
    }

    /// Makes a page of these that of others.
    pub fn copy_page(&mut self, parameters: &Parameters, page: usize, from: &Pages) {
        let places = parameters.places as usize;
        let items = page * places..(page + 1) * places;
        self.numbers[items.clone()].copy_from_slice(&from.numbers[items.clone()]);
        self.words[items.clone()].copy_from_slice(&from.words[items.clone()]);
        self.owners[items.clone()].copy_from_slice(&from.owners[items]);
    }

    /// What stands at an item; number 0 is an empty place.
    pub fn star(&self, item: usize) -> Star {
        Star { number: self.numbers[item], word: self.words[item], owner: self.owners[item] }
    }

    /// What stands at all places that hold a number.
    pub fn stars(&self) -> impl Iterator<Item = Star> + '_ {
        (0..self.numbers.len()).map(|item| self.star(item)).filter(|star| star.number != 0)
    }
}
