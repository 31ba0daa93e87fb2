//! What the programs of this folder share: the libraries that they call, the files that they call them on, and timing.

pub mod files;
pub mod floors;
pub mod methods;
mod older;
mod present;
pub mod procedures;
pub mod timing;

use files::File;
use model::Kind;
pub use older::load;
pub use present::marked;

/// What all versions of the library answer.
#[derive(Clone, Copy, Debug, PartialEq, Eq)]
pub struct Answer {
    pub refusal: u32,
    pub page: u32,
    pub found: bool,
    pub ra: u32,
    pub dec: i32,
    pub due: bool,
    pub stars: u32,
}

/// One version of the library with a file of its own; all calls are the institute's.
pub trait Library {
    fn call(&mut self, kind: Kind, number: u32, ra: u32, dec: i32) -> Answer;
    fn growth(&self) -> [u32; 2];
    fn file(&self) -> File;
    fn copy(&self) -> Box<dyn Library>;
    /// Lends the bytes of a table, to be written or read.
    fn lend(&mut self, table: Vec<u8>);
    /// Gives them back.
    fn table(&self) -> Vec<u8>;

    fn look_up(&mut self, number: u32) -> Answer {
        self.call(Kind::LookUp, number, 0, 0)
    }

    fn enter(&mut self, number: u32) -> Answer {
        self.call(Kind::Enter, number, 1, 0)
    }

    fn cascade(&mut self, number: u32) -> Answer {
        self.call(Kind::Cascade, number, 1, 0)
    }

    fn change(&mut self, number: u32, ra: u32) -> Answer {
        self.call(Kind::Change, number, ra, 0)
    }

    fn remove(&mut self, number: u32) -> Answer {
        self.call(Kind::Remove, number, 0, 0)
    }

    fn grow(&mut self) -> Answer {
        self.call(Kind::Grow, 0, 0, 0)
    }

    fn shrink(&mut self) -> Answer {
        self.call(Kind::Shrink, 0, 0, 0)
    }

    fn open_growth(&mut self) -> Answer {
        self.call(Kind::Open, 0, 0, 0)
    }

    fn step_growth(&mut self) -> Answer {
        self.call(Kind::Step, 0, 0, 0)
    }

    fn due(&mut self) -> Answer {
        self.call(Kind::Due, 0, 0, 0)
    }

    fn check(&mut self) -> Answer {
        self.call(Kind::Check, 0, 0, 0)
    }
}

/// Today's library first, then the older one if one is loaded that has these calls, each with its own copy of the file.
pub fn libraries_with(file: &File, kinds: &[Kind]) -> Vec<Box<dyn Library>> {
    let older = older::loaded().filter(|older| kinds.iter().all(|&kind| older.has(kind)));
    std::iter::once(interface::linked()).chain(older).map(|exports| present::library(exports, file)).collect()
}

/// Today's library.
pub fn today(file: &File) -> Box<dyn Library> {
    present::library(interface::linked(), file)
}
