//! The reference program: reports, lab answers, and cases from a seed.

use std::io::{self, BufRead, BufWriter, Read, Write};
use std::process::ExitCode;

use reference::cases::{cases, write_case};
use reference::lab::Lab;
use reference::lab_cases::talks;
use reference::report::report;

const USAGE: &str = "usage: reference report
       reference lab
       reference make-cases --seed S --count N
       reference make-lab --seed S --count N";

/// What the program is asked for.
enum Task {
    Report,
    Lab,
    MakeCases { seed: u64, count: usize },
    MakeLab { seed: u64, count: usize },
}

fn main() -> ExitCode {
    let arguments: Vec<String> = std::env::args().skip(1).collect();
    let arguments: Vec<&str> = arguments.iter().map(String::as_str).collect();
    let Some(task) = read_task(&arguments) else {
        eprintln!("{USAGE}");
        return ExitCode::FAILURE;
    };
    match perform(task) {
        Ok(()) => ExitCode::SUCCESS,
        Err(error) => {
            eprintln!("reference: {error}");
            ExitCode::FAILURE
        }
    }
}

fn read_task(arguments: &[&str]) -> Option<Task> {
    match *arguments {
        ["report"] => Some(Task::Report),
        ["lab"] => Some(Task::Lab),
        ["make-cases", "--seed", seed, "--count", count] => Some(Task::MakeCases {
            seed: seed.parse().ok()?,
            count: count.parse().ok()?,
        }),
        ["make-lab", "--seed", seed, "--count", count] => Some(Task::MakeLab {
            seed: seed.parse().ok()?,
            count: count.parse().ok()?,
        }),
        _ => None,
    }
}

fn perform(task: Task) -> io::Result<()> {
    match task {
        Task::Report => write_report(),
        Task::Lab => answer_lab_lines(),
        Task::MakeCases { seed, count } => make_cases(seed, count),
        Task::MakeLab { seed, count } => make_lab(seed, count),
    }
}

/// The report of standard input on standard output.
fn write_report() -> io::Result<()> {
    let mut script = Vec::new();
    io::stdin().read_to_end(&mut script)?;
    let report = report(&script).map_err(io::Error::other)?;
    io::stdout().write_all(&report)
}

/// The answers to the lab lines of standard input on standard output.
fn answer_lab_lines() -> io::Result<()> {
    let mut input = io::stdin().lock();
    let mut output = BufWriter::new(io::stdout().lock());
    let mut lab = Lab::default();
    let mut line = Vec::new();
    while input.read_until(b'\n', &mut line)? > 0 {
        let text = line.strip_suffix(b"\n").unwrap_or(&line);
        writeln!(output, "{}", lab.answer(text))?;
        line.clear();
    }
    output.flush()
}

/// A file of bench cases on standard output.
fn make_cases(seed: u64, count: usize) -> io::Result<()> {
    let mut output = BufWriter::new(io::stdout().lock());
    for case in cases(seed, count) {
        write_case(&case, &mut output)?;
    }
    output.flush()
}

/// Lab lines on standard output.
fn make_lab(seed: u64, count: usize) -> io::Result<()> {
    let mut output = BufWriter::new(io::stdout().lock());
    for talk in talks(seed, count) {
        output.write_all(&talk)?;
    }
    output.flush()
}
