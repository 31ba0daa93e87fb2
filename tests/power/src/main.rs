//! Switches off the unit of unit.c at random moments: power UNIT FOLDER [--kills N | --soak MINUTES] [--seed N]
//!
//! After each kill the pages on disk are mended, by the library and by the model, and must be the file before the call that was
//! under way or the one after it. The unit then goes on from there.

use interface::LIBRARY;
use model::files::*;
use model::random::Random;
use model::{Buffers, Call, Growth, Kind, Pages, Parameters, Record};
use std::fs;
use std::io::Read;
use std::path::PathBuf;
use std::process::{exit, Command, Stdio};
use std::time::{Duration, Instant};

const SECTOR: usize = 512;

/// Files on which entries and removals move many stars.
const CROWDED: [[u32; 7]; 4] =
    [[1, 4, 1, 3, 8, 99, 40], [2, 2, 2, 1, 8, 90, 24], [4, 3, 1, 2, 6, 90, 60], [32, 8, 2, 5, 8, 80, 1_024]];

struct Unit {
    program: PathBuf,
    pages: PathBuf,
    calls: PathBuf,
    parameters: Parameters,
    record: Record,
    /// What the disk holds once mended.
    lent: Buffers,
    numbers: Vec<u32>,
}

#[derive(Default)]
struct Counts {
    kills: u64,
    /// Kills that left the file before the call, the one after it, and kills before the first call.
    before: u64,
    after: u64,
    at_start: u64,
    /// Kills that left pages which were neither.
    torn: u64,
    lost: u64,
}

impl Unit {
    fn new(random: &mut Random, program: PathBuf, folder: PathBuf) -> Unit {
        let crowded = Parameters::new(random.pick(&CROWDED)).under(random_multiplier(random));
        let small = small_parameters(random);
        let parameters = random.pick(&[crowded, crowded, small]);
        let possible = u64::from(parameters.pages - parameters.width * parameters.groups);
        let growth = growth_after(&parameters, random.pick(&[possible, possible.saturating_sub(3)]));
        let lent = clean_file(random, &parameters, &growth, 95);
        let mut numbers: Vec<u32> = lent.file.stars().map(|star| star.number).collect();
        numbers.extend((0..numbers.len() / 4 + 4).map(|_| random.star_number()));
        let (pages, calls) = (folder.join("pages"), folder.join("calls"));
        let unit = Unit { program, pages, calls, parameters, record: Record::closed(growth), lent, numbers };
        fs::write(&unit.pages, unit.sectors()).expect("the pages can be stored");
        unit
    }

    /// The pages as the unit stores them: numbers, words and owners, a sector each.
    fn sectors(&self) -> Vec<u8> {
        let (places, file) = (self.parameters.places as usize, &self.lent.file);
        let mut bytes = Vec::new();
        for items in (0..self.parameters.pages as usize).map(|page| page * places..(page + 1) * places) {
            let start = bytes.len();
            file.numbers[items.clone()].iter().for_each(|number| bytes.extend(number.to_ne_bytes()));
            file.words[items.clone()].iter().for_each(|word| bytes.extend(word.to_ne_bytes()));
            bytes.extend(&file.owners[items]);
            bytes.resize(start + SECTOR, 0);
        }
        bytes
    }

    /// What is on disk, with any separators.
    fn found(&self, random: &mut Random) -> Pages {
        let bytes = fs::read(&self.pages).expect("the pages are there");
        let places = self.parameters.places as usize;
        let mut file = Pages::zeros(&self.parameters);
        for (page, sector) in bytes.chunks(SECTOR).enumerate() {
            for place in 0..places {
                let item = page * places + place;
                let word = 4 * places + 8 * place;
                file.numbers[item] = u32::from_ne_bytes(sector[4 * place..][..4].try_into().unwrap());
                file.words[item] = u64::from_ne_bytes(sector[word..][..8].try_into().unwrap());
                file.owners[item] = sector[12 * places + place];
            }
        }
        file.separators.iter_mut().for_each(|separator| *separator = random.draw() as u8);
        file
    }

    fn random_call(&self, random: &mut Random) -> Call {
        let kind = random.pick(&[Kind::Enter, Kind::Enter, Kind::Enter, Kind::Remove, Kind::Remove, Kind::Change]);
        let (ra, dec) = random.position();
        let number = random.pick(&self.numbers);
        let caller = random.pick(&[0, 0, 0, 1, 255]);
        Call { caller, number, ra, dec, ..Call::new(kind, self.parameters, self.record) }
    }

    /// Lets the unit work and switches it off, mostly soon after it began a call that stores several pages; how many calls it began.
    fn work(&self, random: &mut Random, calls: &[Call], files: &[Pages]) -> usize {
        fs::write(&self.calls, calls.iter().flat_map(call_bytes).collect::<Vec<u8>>())
            .expect("the calls can be stored");
        let Growth { expansions, expanded } = self.record.growth;
        let values = self.parameters.list().into_iter().chain([expansions, expanded]).map(|value| value.to_string());
        let mut command = Command::new(&self.program);
        command.arg(&self.pages).arg(&self.calls).arg(random.pick(&["0", "1", "1", "50"])).args(values);
        let stores = |call: usize| files[call].changed_pages(&self.parameters, &files[call + 1]).len() as u64;
        let mut targets: Vec<usize> = (0..calls.len()).filter(|&call| stores(call) > 1).collect();
        if targets.is_empty() || random.once_in(4) {
            targets = (0..calls.len()).collect();
        }
        // Now and then before it is ready.
        let target = Some(random.pick(&targets)).filter(|_| !random.once_in(12));
        let mut child = command.stdout(Stdio::piped()).spawn().expect("the unit starts");
        let (mut begun, mut byte, mut output) = (0, [0; 1], child.stdout.take().unwrap());
        while target.is_some_and(|target| begun <= target) && output.read(&mut byte).is_ok_and(|length| length == 1) {
            begun += 1;
        }
        let (start, most) = (Instant::now(), target.map_or(2_000, |call| 20 + 80 * stores(call)));
        let pause = Duration::from_micros(random.below(most));
        while start.elapsed() < pause {
            std::hint::spin_loop();
        }
        child.kill().expect("the unit can be killed");
        let mut rest = Vec::new();
        output.read_to_end(&mut rest).expect("its output can be read");
        child.wait().expect("the unit ends");
        begun + rest.len()
    }

    /// One kill; what is wrong afterwards, if anything is.
    fn kill(&mut self, random: &mut Random, counts: &mut Counts) -> Result<(), String> {
        let calls: Vec<Call> = (0..60).map(|_| self.random_call(random)).collect();
        let mut files = vec![self.lent.file.clone()];
        for call in &calls {
            (LIBRARY.run)(call, &mut self.lent);
            files.push(self.lent.file.clone());
        }
        let begun = self.work(random, &calls, &files);
        let (before, after) = (&files[begun.saturating_sub(1)], &files[begun]);
        let found = self.found(random);
        let as_found = |pages: &Pages| pages.changed_pages(&self.parameters, &found).is_empty();
        counts.kills += 1;
        counts.torn += u64::from(!as_found(before) && !as_found(after));
        let mut mended = Buffers { file: found, ..Buffers::zeros(&self.parameters) };
        let mut by_model = mended.clone();
        let mend = Call::new(Kind::Mend, self.parameters, self.record);
        let refusal = (LIBRARY.run)(&mend, &mut mended).refusal;
        self.lent = mended.clone();
        match begun {
            0 => counts.at_start += 1,
            _ if mended.file == *before => counts.before += 1,
            _ => counts.after += 1,
        }
        // The model is slow on the largest files.
        let compared = self.parameters.pages < 100 || random.once_in(5);
        if refusal != 0 || compared && (model::run(&mend, &mut by_model).refusal != 0 || mended != by_model) {
            return Err(format!("mending answers {refusal}, or library and model differ"));
        }
        if mended.file != *before && mended.file != *after {
            return Err(format!("after {begun} calls the mended file is neither the one before nor the one after"));
        }
        match (LIBRARY.run)(&Call { kind: Kind::Check, ..mend }, &mut mended).refusal {
            0 => Ok(()),
            refusal => Err(format!("the check of the mended file answers {refusal}")),
        }
    }
}

/// A call as the unit reads it.
fn call_bytes(call: &Call) -> Vec<u8> {
    let kinds = [Kind::Enter, Kind::Change, Kind::Remove];
    let kind = kinds.iter().position(|&kind| kind == call.kind).unwrap() as u32;
    [kind, call.caller.into(), call.number, call.ra, call.dec as u32].into_iter().flat_map(u32::to_ne_bytes).collect()
}

fn usage() -> ! {
    eprintln!("usage: power UNIT FOLDER [--kills N | --soak MINUTES] [--seed N]");
    exit(2)
}

fn main() {
    let mut arguments = std::env::args().skip(1);
    let (Some(program), Some(folder)) = (arguments.next(), arguments.next()) else { usage() };
    let (program, folder) = (PathBuf::from(program), PathBuf::from(folder));
    let (mut kills, mut time, mut seed) = (300, None, 1);
    while let Some(argument) = arguments.next() {
        let mut number = || arguments.next().and_then(|text| text.parse().ok()).unwrap_or_else(|| usage());
        match argument.as_str() {
            "--kills" => kills = number(),
            "--soak" => time = Some(Duration::from_secs(60 * number())),
            "--seed" => seed = number(),
            _ => usage(),
        }
    }
    println!("seed {seed}");
    let (mut random, mut counts, start) = (Random(seed), Counts::default(), Instant::now());
    let goes_on = |counts: &Counts| time.map_or(counts.kills < kills, |time| start.elapsed() < time);
    while goes_on(&counts) {
        let mut unit = Unit::new(&mut random, program.clone(), folder.clone());
        for _ in 0..25 {
            if !goes_on(&counts) {
                break;
            }
            if let Err(failure) = unit.kill(&mut random, &mut counts) {
                println!("{:?} {:?}: {failure}", unit.parameters, unit.record);
                counts.lost += 1;
                break;
            }
        }
    }
    let Counts { kills, before, after, at_start, torn, lost } = counts;
    println!(
        "{kills} kills in {:.1} s: {at_start} before the first call, {before} left the file before the call under way, {after} the one \
         after it; {torn} left pages that were neither; {lost} lost",
        start.elapsed().as_secs_f64()
    );
    println!("{} passed, {lost} failed", kills - lost);
    exit((lost > 0) as i32);
}
