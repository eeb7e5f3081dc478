use cases::floors::schedules;
use cases::garage::garage;
use cases::{figures, morning, refusals};
use reference::schedule::{schedule, ALWAYS_SUFFICE};
use reference::sheet::{line, sheet};
use reference::steel::{answer, Query};
use reference::verdict::judged;
use std::io::{Read, Write};
use std::path::Path;
use std::process::ExitCode;
use std::{env, fs, io};

const USAGE: &str = "usage:
  cases list          print number, refusal and description of each floor file, each change and each
                      floor to schedule bars of that is described one by one
  cases judge         read a floor from standard input; print its refusal and verdict and, where it
                      is not refused, a line per y bay of its panels' least thicknesses
  cases sheet         read a floor from standard input; print what the printing program has to
  cases garage        write the bytes of the example floor to standard output
  cases figures DIR   write the floors of the figures that are run to DIR/stdin, and every figure's
                      line to DIR/stdout
  cases steel M B T D FC FY
                      print refusal and area of a steel query
  cases morning SEED COUNT
                      draw a clear floor and so many changes of it from the seed; print their bytes
                      and after each its refusal and verdict, the table and the governing slice";

fn print_list() -> io::Result<()> {
    let of_cases = refusals::all().into_iter();
    let of_cases = of_cases.map(|case| (case.refusal(), case.description));
    let of_schedules = schedules::floors().into_iter().map(|floor| {
        let (refused, _) = schedule(&floor.bytes, &mut [0; ALWAYS_SUFFICE]);
        (refused, floor.description)
    });
    let mut stdout = io::stdout().lock();
    for (number, (refusal, description)) in (1..).zip(of_cases.chain(of_schedules)) {
        writeln!(stdout, "{number}\t{refusal}\t{description}")?;
    }
    Ok(())
}

fn write_figures(folder: &Path) -> io::Result<()> {
    fs::create_dir_all(folder)?;
    fs::write(folder.join("stdin"), figures::stdin())?;
    fs::write(folder.join("stdout"), figures::stdout())
}

fn print_steel(words: [&str; 6]) -> io::Result<()> {
    let mut numbers = [0; 6];
    for (number, word) in numbers.iter_mut().zip(words) {
        let read: u64 = word.parse().map_err(io::Error::other)?;
        *number = read.into();
    }
    let (refused, area) = answer(Query::of(numbers));
    io::stdout().write_all(line(&[refused, area]).as_bytes())
}

fn print_morning(seed: &str, count: &str) -> io::Result<()> {
    let seed = seed.parse().map_err(io::Error::other)?;
    let count = count.parse().map_err(io::Error::other)?;
    io::stdout().write_all(morning::text(seed, count).as_bytes())
}

/// Reads a floor from standard input and prints the text of it.
fn print_of_floor(text: fn(&[u8]) -> String) -> io::Result<()> {
    let mut floor = Vec::new();
    io::stdin().read_to_end(&mut floor)?;
    io::stdout().write_all(text(&floor).as_bytes())
}

fn write_garage() -> io::Result<()> {
    io::stdout().write_all(&garage().bytes())
}

fn main() -> ExitCode {
    let arguments: Vec<String> = env::args().skip(1).collect();
    let words: Vec<&str> = arguments.iter().map(String::as_str).collect();
    let done = match words[..] {
        ["list"] => print_list(),
        ["judge"] => print_of_floor(judged),
        ["sheet"] => print_of_floor(sheet),
        ["garage"] => write_garage(),
        ["figures", folder] => write_figures(Path::new(folder)),
        ["morning", seed, count] => print_morning(seed, count),
        ["steel", m, b, t, d, fc, fy] => print_steel([m, b, t, d, fc, fy]),
        _ => {
            eprintln!("{USAGE}");
            return ExitCode::from(2);
        }
    };
    match done {
        Ok(()) => ExitCode::SUCCESS,
        Err(error) => {
            eprintln!("cases: {error}");
            ExitCode::FAILURE
        }
    }
}
