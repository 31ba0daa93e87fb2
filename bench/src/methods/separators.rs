//! Linear hashing with separators: the library's own calls, with the pages that they read and write counted.

use super::{Entered, Method, Sought};
use crate::procedures::{Accesses, Cut, Procedures};
use model::hashing::highest_address;
use model::placement::entered_stretch;
use model::session::Session;
use model::{Kind, Outcome, Parameters};
use std::mem::take;

/// The library's file, entered by cascades and grown when growth is due. The report's procedures run beside it, with section
/// 2's cut: they read and write the pages that its cascades visit, and leave the same file, so that what they read and write
/// for an expansion is told of its growth.
pub struct Separators {
    pub session: Session,
    procedures: Procedures,
    /// How many pages hold other stars than before the latest entry.
    pub changed: usize,
}

impl Separators {
    pub fn new(parameters: Parameters) -> Separators {
        let session = Session::with(interface::LIBRARY, parameters);
        Separators { session, procedures: Procedures::new(parameters, Cut::SectionTwo), changed: 0 }
    }

    fn stars_in(&self, numbers: &[u32], page: usize) -> Vec<u32> {
        let places = self.session.parameters.places as usize;
        numbers[page * places..][..places].iter().copied().take_while(|&number| number != 0).collect()
    }

    /// Enters a star that is not held by a cascade: the pages visited. None if it is refused with 8.
    fn cascade(&mut self, star: u32) -> Option<Accesses> {
        let named = self.session.look_up(star).page as usize;
        let before = self.session.lent.file.numbers.clone();
        match self.session.cascade(star).refusal {
            0 => {}
            8 => return None,
            other => panic!("an entry was refused with {other}"),
        }
        let after = &self.session.lent.file.numbers;
        let visited = entered_stretch(self.session.parameters.places as usize, named, &before, after, |_| true);
        let differs = |page: &usize| self.stars_in(&before, *page) != self.stars_in(after, *page);
        self.changed = visited.clone().filter(differs).count();
        let accesses = Accesses { read: visited.clone().count(), written: visited.count() };
        assert!(self.procedures.insert(star));
        assert_eq!(take(&mut self.procedures.accesses), accesses, "the procedures visit the same pages");
        Some(accesses)
    }

    /// None if the growth is refused with 8.
    fn grow(&mut self) -> Option<Accesses> {
        match self.session.grow().refusal {
            0 => {}
            8 => return None,
            other => panic!("a growth was refused with {other}"),
        }
        self.procedures.expand();
        assert!(self.same_file(), "the procedures leave the same file");
        Some(take(&mut self.procedures.accesses))
    }

    fn same_file(&self) -> bool {
        let file = &self.session.lent.file;
        let page = |page: usize| (file.separators[page].into(), self.stars_in(&file.numbers, page));
        (0..file.separators.len()).all(|number| page(number) == self.procedures.page(number))
    }

    /// A look-up with a word of some pages damaged meanwhile.
    fn look_up_damaged(&mut self, star: u32, damaged: impl Fn(usize) -> bool) -> Outcome {
        let places = self.session.parameters.places as usize;
        let words = self.session.lent.file.words.clone();
        let first = self.session.lent.file.words.iter_mut().step_by(places).enumerate();
        first.filter(|(page, _)| damaged(*page)).for_each(|(_, word)| *word = u64::MAX);
        let outcome = self.session.call(Kind::LookUp, star, 0, 0);
        self.session.lent.file.words = words;
        outcome
    }
}

impl Method for Separators {
    fn enter(&mut self, star: u32) -> Option<Entered> {
        let entry = self.cascade(star)?;
        let growth = if self.session.due().due == 1 { self.grow()? } else { Accesses::default() };
        Some(Entered { entry, growth })
    }

    /// One page, since the call meets damage on the page that it answers, and none on all the others.
    fn look_up(&mut self, star: u32) -> Sought {
        let outcome = self.session.look_up(star);
        let page = outcome.page as usize;
        assert_eq!(self.look_up_damaged(star, |other| other != page), outcome, "no other page is read");
        assert_eq!(self.look_up_damaged(star, |other| other == page).refusal, 5, "the page answered is read");
        Sought { found: outcome.found == 1, read: 1 }
    }

    /// Up to the highest address or the last page that holds a star, whichever is higher.
    fn pages(&self) -> usize {
        let Session { parameters, record, lent, .. } = &self.session;
        let last = lent.file.numbers.iter().rposition(|&number| number != 0);
        let used = last.map_or(0, |item| item / parameters.places as usize + 1);
        used.max(highest_address(parameters, &record.growth) as usize + 1)
    }

    fn places(&self) -> usize {
        self.pages() * self.session.parameters.places as usize
    }

    fn directory(&self) -> usize {
        self.pages()
    }
}
