//! Runs the program starline on the cases of a folder and on random input, whose output the model gives:
//! starline-runner PROGRAM FOLDER COUNT. Ends with 'N passed, M failed'.

use model::random::Random;
use model::starline::starline;
use std::fs;
use std::io::Write;
use std::process::{exit, Command, Stdio};

fn output(program: &str, input: Vec<u8>) -> Result<Vec<u8>, String> {
    let started = Command::new(program).stdin(Stdio::piped()).stdout(Stdio::piped()).spawn();
    let mut child = started.map_err(|error| format!("{program}: {error}"))?;
    let mut stdin = child.stdin.take().unwrap();
    // A thread of its own feeds the program, which may write before it has read everything.
    let feeder = std::thread::spawn(move || stdin.write_all(&input));
    let output = child.wait_with_output().map_err(|error| error.to_string())?;
    feeder.join().unwrap().map_err(|error| error.to_string())?;
    if !output.status.success() {
        return Err(format!("ended with {}", output.status));
    }
    Ok(output.stdout)
}

fn field(random: &mut Random) -> String {
    let small = (1 + random.below(40)).to_string();
    let long = "9".repeat(1 + random.below(40) as usize);
    let edges = ["0", "1", "2147483646", "2147483647", "4294967295", "4294967296", "1295999999", "1296000000"];
    let edge = random.pick(&edges).to_string();
    let (ra, dec) = random.position();
    match random.below(12) {
        0 => edge,
        1 => long,
        2 => format!("-{small}"),
        3 => dec.to_string(),
        4 => ra.to_string(),
        5 => random.pick(&["-0", "-2147483648", "-2147483649", "2147483648", "+5", "05", ""]).to_string(),
        _ => small,
    }
}

fn line(random: &mut Random) -> Vec<u8> {
    let number = 1 + random.below(40);
    let (ra, dec) = random.position();
    let mut line = match random.below(20) {
        0..=3 => format!("E {number} {ra} {dec}"),
        // Often a resend.
        4..=6 => format!("E {number} 1 -1"),
        7..=10 => format!("L {number}"),
        11..=14 => format!("R {number}"),
        15 => "G".to_string(),
        16 => format!("E {} {} {}", field(random), field(random), field(random)),
        17 => format!("{} {}", random.pick(&["L", "R", "l", "G", "E", ""]), field(random)),
        _ => format!("E {number} {} {}", field(random), field(random)),
    }
    .into_bytes();
    if random.once_in(10) {
        let place = random.below(line.len() as u64 + 1) as usize;
        let byte = random.pick(b" \t\r0-+9EGLR\0\xff\n,");
        if random.once_in(2) || place == line.len() {
            line.insert(place, byte);
        } else {
            line[place] = byte;
        }
    }
    line
}

fn random_input(random: &mut Random) -> Vec<u8> {
    let mut input = Vec::new();
    for _ in 0..random.below(120) {
        input.extend(line(random));
        input.push(b'\n');
    }
    if random.once_in(2) {
        input.pop();
    }
    input
}

fn main() {
    let arguments: Vec<String> = std::env::args().skip(1).collect();
    let [program, folder, count] = &arguments[..] else {
        eprintln!("usage: starline-runner PROGRAM FOLDER COUNT");
        exit(2)
    };
    let (mut passed, mut failed) = (0, 0);
    let mut compare = |name: String, input: Vec<u8>, expected: Vec<u8>| match output(program, input) {
        Ok(output) if output == expected => passed += 1,
        result => {
            failed += 1;
            println!("{name}: {}", result.map_or_else(|error| error, |_| "other output".to_string()));
        }
    };
    let read = |name: String| fs::read(&name).unwrap_or_else(|error| panic!("{name}: {error}"));
    let cases = fs::read_dir(folder).expect("the folder of cases").count() / 2;
    for case in 0..cases {
        let path = format!("{folder}/case-{case}");
        compare(format!("case {case}"), read(format!("{path}.in")), read(format!("{path}.out")));
    }
    for seed in 0..count.parse().unwrap() {
        let input = random_input(&mut Random(seed));
        let expected = starline(&input).into_bytes();
        compare(format!("random input, seed {seed}"), input, expected);
    }
    println!("{passed} passed, {failed} failed");
    exit((failed > 0) as i32);
}
