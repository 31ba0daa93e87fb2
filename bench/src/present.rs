//! A library, today's or an older one, called through the tests' interface.

use crate::files::File;
use crate::{Answer, Library};
use interface::Exports;
use model::placement::{lay_out, pack, Star};
use model::{Buffers, Call, Growth, Kind, Pages, Parameters, Record};

#[derive(Clone)]
struct Present {
    exports: &'static Exports,
    /// The last call; the next one has its parameters and the growth record after it.
    call: Call,
    lent: Buffers,
}

fn parameters_and_growth(file: &File) -> (Parameters, Growth) {
    let [expansions, expanded] = file.growth;
    (Parameters::new(file.parameters).under(file.multiplier), Growth { expansions, expanded })
}

pub fn library(exports: &'static Exports, file: &File) -> Box<dyn Library> {
    let (parameters, growth) = parameters_and_growth(file);
    let record = Record::closed(growth);
    let call = Call::new(Kind::Due, parameters, record);
    let pages = Pages {
        separators: file.separators.clone(),
        numbers: file.numbers.clone(),
        words: file.words.clone(),
        owners: file.owners.clone(),
    };
    let lent = Buffers { file: pages, ..Buffers::zeros(&parameters) };
    Box::new(Present { exports, call, lent })
}

/// The file that the model's rule gives these stars without a growth; none if a star is carried past the end.
pub fn laid_out(parameters: [u32; 7], stars: &[u32]) -> Option<File> {
    let stars = stars.iter().map(|&number| Star { number, word: pack(1, 0), owner: 0 }).collect();
    let lent = lay_out(&Parameters::new(parameters), &Growth::default(), stars)?;
    let Pages { separators, numbers, words, owners } = lent.file;
    Some(File { separators, numbers, words, owners, ..File::empty(parameters) })
}

/// Which pages the growth that led from one file to the other may have altered.
pub fn marked(before: &File, after: &File) -> Vec<bool> {
    let (parameters, growth) = parameters_and_growth(before);
    let mut marks = vec![0; before.pages()];
    let refusal = interface::mark_changed(&parameters, &growth, &before.separators, &after.separators, &mut marks);
    assert_eq!(refusal, 0, "the marks were refused");
    marks.into_iter().map(|mark| mark != 0).collect()
}

impl Library for Present {
    fn call(&mut self, kind: Kind, number: u32, ra: u32, dec: i32) -> Answer {
        self.call = Call { kind, number, ra, dec, ..self.call };
        let outcome = self.exports.run(&self.call, &mut self.lent);
        self.call.record = outcome.record;
        Answer {
            refusal: outcome.refusal,
            page: outcome.page,
            found: outcome.found != 0,
            ra: outcome.ra,
            dec: outcome.dec,
            due: outcome.due != 0,
            stars: outcome.stars,
        }
    }

    fn growth(&self) -> [u32; 2] {
        let Growth { expansions, expanded } = self.call.record.growth;
        [expansions, expanded]
    }

    fn file(&self) -> File {
        let [parameters @ .., multiplier] = self.call.parameters.list();
        File {
            parameters,
            multiplier,
            growth: self.growth(),
            separators: self.lent.file.separators.clone(),
            numbers: self.lent.file.numbers.clone(),
            words: self.lent.file.words.clone(),
            owners: self.lent.file.owners.clone(),
        }
    }

    fn copy(&self) -> Box<dyn Library> {
        Box::new(self.clone())
    }

    fn lend(&mut self, table: Vec<u8>) {
        self.lent.table = table;
    }

    fn table(&self) -> Vec<u8> {
        self.lent.table.clone()
    }
}
