//! Writes the fixed lists and the lines that replaying them must print, and the
//! samples of the other programs with their answers; or prints a list, or one
//! question with its answer.

use oracle::replays::{Replay, REPLAYS};
use oracle::{assembly, calls, places, record, report, words};
use std::io::Write;
use std::path::{Path, PathBuf};
use std::process::ExitCode;
use std::{env, fs, io};

const USAGE: &str = "usage: fixtures [--to FOLDER | --list PROGRAM FIXED | --list PROGRAM FULL | \
                     --script FAMILY NUMBER | --answer FAMILY NUMBER | \
                     --report FAMILY NUMBER INPUT | --report-answer FAMILY NUMBER INPUT | \
                     --text FAMILY NUMBER | --text-answer FAMILY NUMBER]";

fn main() -> ExitCode {
    let arguments: Vec<String> = env::args().skip(1).collect();
    let arguments: Vec<&str> = arguments.iter().map(String::as_str).collect();
    let done = match arguments[..] {
        [] => write(&places::root().join("crates")),
        ["--to", folder] => write(&PathBuf::from(folder)),
        ["--list", program, "FIXED"] => print(program, |replay| replay.fixed),
        ["--list", program, "FULL"] => print(program, |replay| replay.full),
        ["--script", family, number] => print_script(family, number, |script| script),
        ["--answer", family, number] => {
            print_script(family, number, |script| calls::program::output(&script))
        }
        ["--report", family, number, input] => print_report(family, number, input, |input| input),
        ["--report-answer", family, number, input] => {
            print_report(family, number, input, |input| {
                report::program::answer(&input)
            })
        }
        ["--text", family, number] => print_text(family, number, |text| text),
        ["--text-answer", family, number] => {
            print_text(family, number, |text| assembly::program::answer(&text))
        }
        _ => Err(io::Error::other(USAGE)),
    };
    match done {
        Ok(()) => ExitCode::SUCCESS,
        Err(error) => {
            eprintln!("{error}");
            ExitCode::FAILURE
        }
    }
}

/// What each program of `crates` reads, and what it must print.
fn write(crates: &Path) -> io::Result<()> {
    for replay in &REPLAYS {
        let records = (replay.fixed)();
        let line = format!("{} passed, 0 failed\n", records.len());
        let list = record::list_bytes(&records);
        write_program(&crates.join(replay.program), &list, line.as_bytes())?;
    }
    write_program(
        &crates.join("massey_listing"),
        &words::sample::image(),
        words::sample::listing().as_bytes(),
    )?;
    let text = assembly::texts::sample::TEXT.as_bytes();
    write_program(
        &crates.join("massey_assemble"),
        text,
        &assembly::program::answer(text),
    )?;
    let script = calls::scripts::sample::script();
    write_program(
        &crates.join("massey_calls"),
        &script,
        &calls::program::output(&script),
    )?;
    let input = report::program::bytes(&report::inputs::sample::invented());
    let answer = report::program::answer(&input);
    write_program(&crates.join("massey_report"), &input, &answer)
}

fn write_program(folder: &Path, stdin: &[u8], stdout: &[u8]) -> io::Result<()> {
    fs::create_dir_all(folder)?;
    fs::write(folder.join("stdin"), stdin)?;
    fs::write(folder.join("stdout"), stdout)?;
    let (read, written) = (stdin.len(), stdout.len());
    println!("{}: {read} bytes in, {written} out", folder.display());
    Ok(())
}

fn print(program: &str, list: fn(&Replay) -> fn() -> Vec<record::Record>) -> io::Result<()> {
    let replay = REPLAYS.iter().find(|replay| replay.program == program);
    let records = list(replay.ok_or_else(|| io::Error::other(USAGE))?)();
    io::stdout().lock().write_all(&record::list_bytes(&records))
}

/// A script of `massey_calls`, as `compare` names it, or what is due for it.
fn print_script(family: &str, number: &str, form: fn(Vec<u8>) -> Vec<u8>) -> io::Result<()> {
    let family = calls::scripts::FAMILIES
        .iter()
        .find(|one| one.name == family);
    let number = number.parse().ok();
    let (Some(family), Some(number)) = (family, number) else {
        return Err(io::Error::other(USAGE));
    };
    if number >= (family.count)() {
        return Err(io::Error::other("there is no such script"));
    }
    io::stdout()
        .lock()
        .write_all(&form((family.script)(number)))
}

/// An input of `massey_report`, as `compare` names it, or what is due for it.
fn print_report(
    family: &str,
    number: &str,
    input: &str,
    form: fn(Vec<u8>) -> Vec<u8>,
) -> io::Result<()> {
    let family = report::inputs::FAMILIES
        .iter()
        .find(|one| one.name == family);
    let (Some(family), Ok(number), Ok(input)) =
        (family, number.parse::<usize>(), input.parse::<usize>())
    else {
        return Err(io::Error::other(USAGE));
    };
    let case = (number < (family.count)()).then(|| (family.inputs)(number));
    let input = case.and_then(|inputs| inputs.into_iter().nth(input));
    let input = input.ok_or_else(|| io::Error::other("there is no such input"))?;
    io::stdout().lock().write_all(&form(input))
}

/// A text of `massey_assemble`, as `compare` names it, or what is due for it.
fn print_text(family: &str, number: &str, form: fn(Vec<u8>) -> Vec<u8>) -> io::Result<()> {
    let family = assembly::texts::FAMILIES
        .iter()
        .find(|one| one.name == family);
    let (Some(family), Ok(number)) = (family, number.parse::<usize>()) else {
        return Err(io::Error::other(USAGE));
    };
    if number >= (family.count)() {
        return Err(io::Error::other("there is no such text"));
    }
    io::stdout().lock().write_all(&form((family.text)(number)))
}
