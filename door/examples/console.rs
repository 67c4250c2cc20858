// A console in Rust: the report of a script, and the words of commands.
use gelmuska::{Command, Word, report};
use std::error::Error;
use std::io::Write;

fn main() -> Result<(), Box<dyn Error>> {
    let path = std::env::args().nth(1).ok_or("usage: console SCRIPT")?;
    let script = std::fs::read(path)?;
    std::io::stdout().write_all(&report(&script)?)?;

    let run = Command { code: 2, argument: 50 };
    let word = Word { label: 2, kind: 1, payload: run.pack()? };
    println!("run at 5.0 km/h under label 2: {:016X}", word.pack()?);

    let heard = Word::read(word.pack()?)?;
    let command = Command::unpack(heard.payload)?;
    println!("heard under label {}: code {}, argument {}", heard.label, command.code, command.argument);

    let too_fast = Command { code: 2, argument: 61 };
    match too_fast.pack() {
        Ok(payload) => println!("taken: {payload:09X}"),
        Err(refusal) => println!("refused {}: {refusal}", refusal.number()),
    }
    Ok(())
}
