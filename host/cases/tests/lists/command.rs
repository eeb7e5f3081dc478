//! The command: what it prints of a floor or a query, and the example floor that is kept.

use cases::floors::schedules;
use cases::floors::small::one_bay;
use cases::garage::garage;
use cases::{morning, refusals};
use reference::sheet::sheet;
use reference::table::numbers;
use reference::verdict::judge;
use std::fs;
use std::io::Write;
use std::path::Path;
use std::process::{Command, Output, Stdio};

/// Run with these words and these bytes on its standard input.
fn run(words: &[&str], stdin: &[u8]) -> Output {
    let mut command = Command::new(env!("CARGO_BIN_EXE_cases"))
        .args(words)
        .stdin(Stdio::piped())
        .stdout(Stdio::piped())
        .spawn()
        .unwrap();
    // Taken, so that it is closed once written.
    command.stdin.take().unwrap().write_all(stdin).unwrap();
    command.wait_with_output().unwrap()
}

fn printed(words: &[&str], stdin: &[u8]) -> String {
    let output = run(words, stdin);
    assert!(output.status.success());
    String::from_utf8(output.stdout).unwrap()
}

#[test]
fn the_command_answers_a_query() {
    for (words, line) in [
        ("2195000 1000 150 124 30 420", "0 484\n"),
        ("2195000 1000 150 0 30 420", "0 540\n"),
        ("20000000 1000 150 0 30 420", "12 0\n"),
        ("0 0 0 0 0 18446744073709551615", "11 0\n"),
    ] {
        let words: Vec<&str> = ["steel"].into_iter().chain(words.split(' ')).collect();
        assert_eq!(printed(&words, &[]), line);
    }
    let wide = "18446744073709551616";
    let refused = run(&["steel", wide, "1", "150", "0", "30", "420"], &[]);
    assert!(!refused.status.success() && refused.stdout.is_empty());
}

#[test]
fn the_command_prints_a_morning() {
    assert_eq!(printed(&["morning", "7", "2"], &[]), morning::text(7, 2));
    let refused = run(&["morning", "7", "-1"], &[]);
    assert!(!refused.status.success() && refused.stdout.is_empty());
}

/// A line for each: number, refusal, description.
#[test]
fn the_command_lists_the_cases() {
    let listed = printed(&["list"], &[]);
    assert_eq!(listed.lines().next(), Some("1\t1\tempty file"));
    let schedules = schedules::floors();
    let count = refusals::all().len() + schedules.len();
    assert_eq!(listed.lines().count(), count);
    let last = "schedule, 12x12, strip of 0 mm in the last record, across";
    assert_eq!(
        listed.lines().last(),
        Some(&format!("{count}\t17\t{last}")[..])
    );
}

/// 01's floor of one bay each way: 4,000 less 400 over 30 is 120, and 125 is the least.
#[test]
fn the_command_prints_what_is_judged() {
    let one_bay = one_bay().bytes();
    assert_eq!(printed(&["judge"], &one_bay), "0 1\n125\n");
    assert_eq!(printed(&["judge"], &one_bay[1..]), "1 255\n");
}

#[test]
fn the_command_prints_the_sheet() {
    let floor = garage().bytes();
    assert_eq!(printed(&["sheet"], &floor), sheet(&floor));
    assert_eq!(printed(&["sheet"], &floor[1..]), "1 255\n");
}

/// The folder of the example, and the commands to run beside it.
const EXAMPLE: &str = concat!(env!("CARGO_MANIFEST_DIR"), "/../../example");
const RENEW: &str = "renew both files, in the folder that holds host and example, with \
    cargo cases garage > example/garage.floor and cargo cases sheet < example/garage.floor > example/garage.sheet";

fn kept(file: &str) -> Vec<u8> {
    let kept = fs::read(Path::new(EXAMPLE).join(file));
    kept.unwrap_or_else(|error| panic!("example/{file}: {error}; {RENEW}"))
}

#[test]
fn the_kept_garage_is_clear_and_as_described() {
    let floor = garage().bytes();
    assert_eq!(judge(&floor), (0, 0));
    assert!(kept("garage.floor") == floor, "{RENEW}");
    // Kept as the command writes it, of which standard input is no part.
    assert_eq!(run(&["garage"], &[]).stdout, floor);
}

#[test]
fn the_kept_sheet_is_that_of_the_garage() {
    let sheet = sheet(&kept("garage.floor"));
    assert!(kept("garage.sheet") == sheet.into_bytes(), "{RENEW}");
}

/// The first bay of the south line: half of 6,000 and of 500 wide, 6,600 less 600 long, 166,400 for the
/// loads: 166400·3250·6000²/80000000000 = 243,360, of which 16, 57 and 70 percent.
#[test]
fn the_garage_by_hand() {
    let found = &numbers(&garage().bytes())[..16];
    assert_eq!(found[0], 243_360);
    assert_eq!(
        [found[1], found[6], found[11]],
        [3_893_760, 13_871_520, 17_035_200]
    );
}
