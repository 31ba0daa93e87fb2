//! Runs files of vectors against the model; ends with 'N passed, M failed'.

fn main() {
    let passed = model::vectors::run_files(std::env::args().skip(1), model::MODEL);
    std::process::exit(!passed as i32);
}
