//! Measures the library beside hand-written Rust; see README.md.
mod check;
mod codec;
mod elements;
mod library;
mod messages;
mod passes;
mod random;
mod tables;
mod terminals;
mod timing;

use std::process::ExitCode;

fn main() -> ExitCode {
    let arguments: Vec<String> = std::env::args().skip(1).collect();
    let only_check = arguments == ["--check"];
    if !only_check && !arguments.is_empty() {
        eprintln!("usage: whistlaurel-bench [--check]");
        return ExitCode::from(2);
    }
    match check::run() {
        Ok(summary) => println!("{summary}"),
        Err(difference) => {
            eprintln!("library and codec differ: {difference}");
            return ExitCode::FAILURE;
        }
    }
    if !only_check {
        tables::print();
    }
    ExitCode::SUCCESS
}
