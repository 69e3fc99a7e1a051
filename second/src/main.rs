//! The command line: `second examples DIR`, `second show FILE`, `second compare` and
//! `second measure`.

use second::compare::run::{options, Options};
use second::{examples, printing};
use std::fs::{self, File};
use std::io::{self, Read, Write};
use std::path::Path;
use std::process::ExitCode;

const USAGE: &str = "\
usage: second examples DIR   write every example sheet to DIR, each with a text about it
       second show FILE      print the search's answer for a sheet; - is standard input
       second compare --seed N --cases M [--threads T]
                             compare with the proved archive, in cases 0 to M - 1 of seed N
       second compare --seed N --case I
                             compare in case I alone
       second measure        time the proved search beside this program's own
";

fn main() -> ExitCode {
    let arguments: Vec<String> = std::env::args().skip(1).collect();
    let words: Vec<&str> = arguments.iter().map(String::as_str).collect();
    let done = match words.as_slice() {
        ["examples", directory] => write_examples(Path::new(directory)),
        ["show", file] => show(file),
        ["compare", rest @ ..] => match options(rest) {
            Some(options) => compare(&options),
            None => return wrong_call(),
        },
        ["measure"] => measure(),
        _ => return wrong_call(),
    };
    match done {
        Ok(true) => ExitCode::SUCCESS,
        Ok(false) => ExitCode::FAILURE,
        Err(error) => {
            eprintln!("second: {error}");
            ExitCode::FAILURE
        }
    }
}

/// Tells how the program is called.
fn wrong_call() -> ExitCode {
    eprint!("{USAGE}");
    ExitCode::from(2)
}

/// Compares with the proved archive and says whether all is well.
#[cfg(proved)]
fn compare(options: &Options) -> io::Result<bool> {
    use second::compare::{run, side::Ours};
    use second::proved::Proved;
    run::compare(options, [&Ours, &Proved], &mut io::stdout())
}

/// Without the archive there is nothing to compare with.
#[cfg(not(proved))]
fn compare(_: &Options) -> io::Result<bool> {
    no_archive()
}

/// Times both searches and says whether they gave the same answers.
#[cfg(proved)]
fn measure() -> io::Result<bool> {
    second::measure::measure(&mut io::stdout())
}

/// Without the archive there is nothing to time.
#[cfg(not(proved))]
fn measure() -> io::Result<bool> {
    no_archive()
}

/// What is said where the archive is needed and missing.
#[cfg(not(proved))]
fn no_archive() -> io::Result<bool> {
    Err(io::Error::other(
        "this program was built without the proved archive: \
         set POTUCHLAN_LIB to its folder and build again",
    ))
}

/// Writes each example as NAME.sheet with NAME.txt beside it.
fn write_examples(directory: &Path) -> io::Result<bool> {
    fs::create_dir_all(directory)?;
    for example in examples::all() {
        let name = &example.name;
        fs::write(directory.join(format!("{name}.sheet")), &example.bytes)?;
        fs::write(
            directory.join(format!("{name}.txt")),
            format!("{}\n", example.about),
        )?;
    }
    Ok(true)
}

/// Prints the line of the printing program for the start of a file.
fn show(file: &str) -> io::Result<bool> {
    let mut input = Vec::new();
    let most = printing::MOST_INPUT as u64;
    if file == "-" {
        io::stdin().take(most).read_to_end(&mut input)?;
    } else {
        File::open(file)?.take(most).read_to_end(&mut input)?;
    }
    io::stdout().write_all(printing::line(&input).as_bytes())?;
    Ok(true)
}
