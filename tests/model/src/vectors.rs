//! Files of single calls on explicit buffers with everything expected afterwards, in two forms: document 01's, and
//! document 02's, whose vectors begin with the requests that have landed.

use crate::tray::{Report, Tray};
use crate::{Buffers, Call, Growth, Implementation, Kind, Outcome, Pages, Parameters, Record, Refused};
use std::fmt::{Debug, Display, Write};
use std::fs;
use std::str::FromStr;

/// The labels of a file's buffers.
const FILE: [&str; 4] = ["seps", "nums", "words", "owners"];
/// Those of the second set of pages.
const SECOND: [&str; 4] = ["seps2", "nums2", "words2", "owners2"];

pub struct Vector {
    pub call: Call,
    pub before: Buffers,
    pub outcome: Outcome,
    pub after: Buffers,
}

/// Reads one vector's lines `label value value ..`.
struct Reader<'a> {
    lines: std::slice::Iter<'a, (usize, &'a str)>,
    /// Whether the form is document 02's.
    later: bool,
    /// Whether request (x) has landed. Before it owners and callers mean nothing: they count as 0.
    owned: bool,
}

fn value<T: FromStr>(field: &str) -> Result<T, String> {
    field.parse().map_err(|_| format!("bad value '{field}'"))
}

impl<'a> Reader<'a> {
    /// The values of the next line, which must have the label.
    fn fields(&mut self, label: &str) -> Result<Vec<&'a str>, String> {
        let mut fields = self.lines.next().map_or("", |line| line.1).split_ascii_whitespace();
        match fields.next() == Some(label) {
            true => Ok(fields.collect()),
            false => Err(format!("'{label}' was expected")),
        }
    }

    /// The same where document 01's form has `first` values and document 02's has `later`.
    fn counted(&mut self, label: &str, first: usize, later: usize) -> Result<Vec<&'a str>, String> {
        let fields = self.fields(label)?;
        let count = if self.later { later } else { first };
        match fields.len() == count {
            true => Ok(fields),
            false => Err(format!("{label}: {count} values were expected")),
        }
    }

    fn values<T: FromStr>(&mut self, label: &str) -> Result<Vec<T>, String> {
        self.fields(label)?.into_iter().map(value).collect()
    }

    fn parameters(&mut self, label: &str) -> Result<Parameters, String> {
        // Document 01's form has no multiplier.
        let mut list = Parameters::new([0; 7]).list();
        for (parameter, field) in list.iter_mut().zip(self.counted(label, 7, 8)?) {
            *parameter = value(field)?;
        }
        Ok(Parameters::from_list(list))
    }

    /// Document 01's form has (e, x) alone.
    fn record(&mut self, label: &str) -> Result<Record, String> {
        let fields = self.counted(if self.later { label } else { "state" }, 2, 4)?;
        let growth = Growth { expansions: value(fields[0])?, expanded: value(fields[1])? };
        let (open, steps) = (fields.get(2).unwrap_or(&"0"), fields.get(3).unwrap_or(&"0"));
        Ok(Record { growth, open: value::<u8>(open)? != 0, steps: value(steps)? })
    }

    /// The owners of so many numbers. Document 01's form has none.
    fn owners(&mut self, label: &str, numbers: usize) -> Result<Vec<u8>, String> {
        let owners = if self.later { self.values(label)? } else { Vec::new() };
        Ok(if self.owned { owners } else { vec![0; numbers] })
    }

    fn pages(&mut self, [separators, numbers, words, owners]: [&str; 4]) -> Result<Pages, String> {
        let (separators, numbers, words) = (self.values(separators)?, self.values(numbers)?, self.values(words)?);
        let owners = self.owners(owners, numbers.len())?;
        Ok(Pages { separators, numbers, words, owners })
    }

    fn tray(&mut self) -> Result<Tray, String> {
        let count = value(self.counted("count", 1, 1)?[0])?;
        let fields = self.fields("reports")?;
        let length = value(fields.first().ok_or("reports: a length was expected")?)?;
        let mut reports = fields[1..].chunks(5).map(report).collect::<Result<Vec<Report>, String>>()?;
        reports.resize(length, Report::default());
        Ok(Tray { count, reports, filter: self.values("filter")? })
    }

    /// A table's bytes: their number and the first of them, the others being all the same.
    fn table(&mut self, others: u8) -> Result<Vec<u8>, String> {
        let fields = self.fields("bytes")?;
        let length = value(fields.first().ok_or("bytes: a length was expected")?)?;
        let digits = fields.get(1).unwrap_or(&"");
        let byte = |at: usize| digits.get(at..at + 2).and_then(|pair| u8::from_str_radix(pair, 16).ok());
        let bytes: Option<Vec<u8>> = (0..digits.len()).step_by(2).map(byte).collect();
        let mut bytes = bytes.ok_or("bytes: pairs of hexadecimal digits were expected")?;
        bytes.resize(length, others);
        Ok(bytes)
    }

    /// Parameters, records and buffers into the call. Document 02's form has only what the kind takes, and the file; `afterwards`
    /// a reading's table does not stand again, nor do the parameters in document 01's form.
    fn lent(&mut self, call: &mut Call, afterwards: bool) -> Result<Buffers, String> {
        let kind = call.kind;
        if self.later || !afterwards {
            call.parameters = self.parameters("params")?;
        }
        call.record = self.record("record")?;
        let mut lent = Buffers { file: self.pages(FILE)?, ..Buffers::default() };
        if !self.later || kind.takes_pool() {
            (lent.pool_numbers, lent.pool_words) = (self.values("pnums")?, self.values("pwords")?);
            lent.pool_owners = self.owners("powners", lent.pool_numbers.len())?;
        }
        if kind.takes_second() {
            (call.new_parameters, call.new_record) = (self.parameters("params2")?, self.record("record2")?);
            if kind != Kind::Carry && (call.new_parameters, call.new_record) != (call.parameters, call.record) {
                return Err("the second set has other parameters or another record".to_string());
            }
            lent.second = self.pages(SECOND)?;
        }
        if kind.takes_tray() {
            lent.tray = self.tray()?;
        }
        if kind.takes_table() && !(kind == Kind::Read && afterwards) {
            lent.table = self.table(if kind == Kind::Read { 0 } else { 170 })?;
        }
        Ok(lent)
    }

    fn outcome(&mut self) -> Result<Outcome, String> {
        let answer = self.counted("answer", 8, 13)?;
        let number = |i: usize| answer.get(i).map_or(Ok(0), |field| value(field));
        Ok(Outcome {
            refusal: number(0)?,
            page: number(1)?,
            place: number(2)?,
            found: number(3)?,
            ra: number(4)?,
            dec: value(answer[5])?,
            due: number(6)?,
            stars: number(7)?,
            length: number(8)?,
            filed: number(9)?,
            inner: Refused { refusal: number(10)?, page: number(11)?, place: number(12)? },
            record: Record::default(),
        })
    }

    fn vector(&mut self, landed: &[u32]) -> Result<Vector, String> {
        if self.later {
            let needed: Vec<u32> = self.values("landed")?;
            if let Some(request) = needed.iter().find(|request| !landed.contains(request)) {
                return Err(format!("request {request} has not landed"));
            }
            self.owned = needed.contains(&10);
        }
        let name = self.fields("call")?.concat();
        let kind = Kind::ALL.into_iter().find(|kind| kind.name() == name);
        let kind = kind.ok_or_else(|| format!("no call '{name}'"))?;
        let mut call = Call::new(kind, Parameters::new([0; 7]), Record::default());
        let before = self.lent(&mut call, false)?;
        let args = self.counted("args", 3, 6)?;
        (call.number, call.ra, call.dec) = (value(args[0])?, value(args[1])?, value(args[2])?);
        if self.owned {
            call.caller = value(args[3])?;
            (call.removed, call.stores) = (value(args[4])?, value(args[5])?);
        }
        let mut outcome = self.outcome()?;
        let mut afterwards = call;
        let mut after = self.lent(&mut afterwards, true)?;
        outcome.record = afterwards.record;
        if kind == Kind::Read {
            after.table.clone_from(&before.table);
        }
        let carried = kind == Kind::Carry && afterwards.new_record != call.new_record;
        if carried || (afterwards.parameters, afterwards.new_parameters) != (call.parameters, call.new_parameters) {
            return Err("no call changes parameters, or the record of a new file".to_string());
        }
        self.counted("end", 0, 0)?;
        Ok(Vector { call, before, outcome, after })
    }
}

fn report(fields: &[&str]) -> Result<Report, String> {
    let [number, ra, dec, owner, removed] = fields else {
        return Err("reports: five values each were expected".to_string());
    };
    let (number, ra, dec) = (value(number)?, value(ra)?, value(dec)?);
    Ok(Report { number, ra, dec, owner: value(owner)?, removed: value(removed)? })
}

/// Each vector of a text with the line at which it starts, or what hinders an implementation with these requests from
/// running it.
pub fn parse(text: &str, landed: &[u32]) -> Vec<(usize, Result<Vector, String>)> {
    let lines: Vec<(usize, &str)> = (1..).zip(text.lines()).filter(|(_, line)| !line.trim().is_empty()).collect();
    let vector = |lines: &[(usize, &str)]| {
        let later = lines[0].1.starts_with("landed");
        (lines[0].0, Reader { lines: lines.iter(), later, owned: false }.vector(landed))
    };
    lines.split_inclusive(|(_, line)| line.trim() == "end").map(vector).collect()
}

/// Runs files of vectors, tells of those that fail and closes with 'N passed, M failed'; whether all passed.
pub fn run_files(files: impl Iterator<Item = String>, run: Implementation) -> bool {
    let (mut passed, mut failed) = (0, 0);
    for file in files {
        let vectors = match fs::read_to_string(&file) {
            Ok(text) => parse(&text, run.landed),
            Err(error) => vec![(0, Err(error.to_string()))],
        };
        for (line, vector) in vectors {
            let differences = match vector {
                Ok(vector) if !run.has(vector.call.kind) => vec![format!("no {} yet", vector.call.kind.name())],
                Ok(vector) => vector.differences(run),
                Err(error) => vec![error],
            };
            for difference in &differences {
                println!("{file}, line {line}: {difference}");
            }
            *if differences.is_empty() { &mut passed } else { &mut failed } += 1;
        }
    }
    println!("{passed} passed, {failed} failed");
    failed == 0
}

impl Vector {
    /// Runs the call and names what differs, a line each.
    pub fn differences(&self, run: Implementation) -> Vec<String> {
        let mut lent = self.before.clone();
        let mut outcome = (run.run)(&self.call, &mut lent);
        outcome.record = self.call.record_after(&outcome);
        let mut list = Vec::new();
        if self.outcome != outcome {
            list.push(format!("{}: expected {:?}, got {outcome:?}", self.call.kind.name(), self.outcome));
        }
        for (set, after, lent) in [("", &self.after.file, &lent.file), ("second ", &self.after.second, &lent.second)] {
            compare(&mut list, &format!("{set}separator"), &after.separators, &lent.separators);
            compare(&mut list, &format!("{set}number"), &after.numbers, &lent.numbers);
            compare(&mut list, &format!("{set}word"), &after.words, &lent.words);
            compare(&mut list, &format!("{set}owner"), &after.owners, &lent.owners);
        }
        compare(&mut list, "pool number", &self.after.pool_numbers, &lent.pool_numbers);
        compare(&mut list, "pool word", &self.after.pool_words, &lent.pool_words);
        compare(&mut list, "pool owner", &self.after.pool_owners, &lent.pool_owners);
        compare(&mut list, "report", &self.after.tray.reports, &lent.tray.reports);
        compare(&mut list, "filter word", &self.after.tray.filter, &lent.tray.filter);
        compare(&mut list, "count", &[self.after.tray.count], &[lent.tray.count]);
        compare(&mut list, "byte", &self.after.table, &lent.table);
        list
    }

    /// The vector in document 02's form, for an implementation with these requests.
    pub fn text(&self, landed: &[u32]) -> String {
        let Call { kind, record, caller, number, ra, dec, removed, stores, .. } = self.call;
        let mut text = String::new();
        put(&mut text, "landed", landed);
        put(&mut text, "call", &[kind.name()]);
        put_lent(&mut text, &self.call, &record, &self.before, false);
        writeln!(text, "args {number} {ra} {dec} {caller} {removed} {stores}").unwrap();
        let Outcome { refusal, page, place, found, ra, dec, due, stars, length, filed, inner, record } = self.outcome;
        write!(text, "answer {refusal} {page} {place} {found} {ra} {dec} {due} {stars}").unwrap();
        writeln!(text, " {length} {filed} {} {} {}", inner.refusal, inner.page, inner.place).unwrap();
        put_lent(&mut text, &self.call, &record, &self.after, true);
        text + "end\n"
    }
}

fn put<T: Display>(text: &mut String, label: &str, values: &[T]) {
    text.push_str(label);
    for value in values {
        write!(text, " {value}").unwrap();
    }
    text.push('\n');
}

fn put_lent(text: &mut String, call: &Call, record: &Record, lent: &Buffers, afterwards: bool) {
    let kind = call.kind;
    let record_list = |record: &Record| {
        let Record { growth: Growth { expansions, expanded }, open, steps } = *record;
        [expansions, expanded, open.into(), steps]
    };
    put(text, "params", &call.parameters.list());
    put(text, "record", &record_list(record));
    put_pages(text, FILE, &lent.file);
    if kind.takes_pool() {
        put(text, "pnums", &lent.pool_numbers);
        put(text, "pwords", &lent.pool_words);
        put(text, "powners", &lent.pool_owners);
    }
    if kind.takes_second() {
        put(text, "params2", &call.second_parameters().list());
        put(text, "record2", &record_list(if kind == Kind::Carry { &call.new_record } else { record }));
        put_pages(text, SECOND, &lent.second);
    }
    if kind.takes_tray() {
        put_tray(text, &lent.tray);
    }
    if kind.takes_table() && !(kind == Kind::Read && afterwards) {
        let digits: String = lent.table.iter().map(|byte| format!("{byte:02x}")).collect();
        writeln!(text, "bytes {} {digits}", lent.table.len()).unwrap();
    }
}

fn put_tray(text: &mut String, tray: &Tray) {
    put(text, "count", &[tray.count]);
    write!(text, "reports {}", tray.reports.len()).unwrap();
    let last = tray.reports.iter().rposition(|report| *report != Report::default());
    for Report { number, ra, dec, owner, removed } in &tray.reports[..last.map_or(0, |last| last + 1)] {
        write!(text, " {number} {ra} {dec} {owner} {removed}").unwrap();
    }
    text.push('\n');
    put(text, "filter", &tray.filter);
}

fn put_pages(text: &mut String, [separators, numbers, words, owners]: [&str; 4], pages: &Pages) {
    put(text, separators, &pages.separators);
    put(text, numbers, &pages.numbers);
    put(text, words, &pages.words);
    put(text, owners, &pages.owners);
}

/// Names the buffer and the first item that differs.
fn compare<T: PartialEq + Debug>(list: &mut Vec<String>, name: &str, expected: &[T], got: &[T]) {
    if expected.len() != got.len() {
        list.push(format!("{name}s: expected {} of them, got {}", expected.len(), got.len()));
    } else if let Some(i) = (0..expected.len()).find(|&i| expected[i] != got[i]) {
        list.push(format!("{name} {i}: expected {:?}, got {:?}", expected[i], got[i]));
    }
}
