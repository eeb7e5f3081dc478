use mutants::kit::{listed, Kit};
use mutants::run::{list, try_all};
use std::env;
use std::path::Path;
use std::process::ExitCode;

// mutants REPOSITORY [--list] CRATE..
fn main() -> ExitCode {
    let words: Vec<String> = env::args().skip(1).collect();
    let done = match words.as_slice() {
        [] => Err("the repository is not named".to_string()),
        [repository, list, names @ ..] if list == "--list" => {
            list_crates(Path::new(repository), names)
        }
        [repository, names @ ..] => try_crates(Path::new(repository), names),
    };
    match done {
        Ok(()) => ExitCode::SUCCESS,
        Err(trouble) => {
            eprintln!("mutants: {trouble}");
            ExitCode::from(2)
        }
    }
}

fn list_crates(repository: &Path, names: &[String]) -> Result<(), String> {
    for name in names {
        let lines = list(repository, name).map_err(|trouble| format!("{name}: {trouble}"))?;
        println!("{}", lines.join("\n"));
    }
    Ok(())
}

fn try_crates(repository: &Path, names: &[String]) -> Result<(), String> {
    let kit = Kit::find()?;
    let list = listed(repository).map_err(|trouble| format!("crates.txt: {trouble}"))?;
    let mut summaries = Vec::new();
    for name in names {
        let own = list
            .iter()
            .find(|listed| listed.name == *name)
            .ok_or(format!("{name} is not in crates.txt"))?;
        summaries.push(try_all(&kit, repository, &list, own)?);
    }
    println!("{}", summaries.join("\n"));
    Ok(())
}
