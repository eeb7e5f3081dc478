use differ::job::{Job, LIBRARY};
use differ::lent::Room;
use differ::page::{self, Lacking, PAGE};
use differ::report::{grouped, report};
use differ::tally::Tally;
use differ::variety;
use differ::work::{parts, Amount, Difference, Part, LONG, SHORT, UNDER_VALGRIND};
use std::env;
use std::process::ExitCode;
use std::time::Instant;

const USAGE: &str = "usage: differ short|long|valgrind [SEED]
       differ short|long page [SEED]
  compares the static library with the independent implementation, on what is drawn from SEED, or from 1
  short      what cargo test compares
  long       200,000 floors, 1,000,000 changes, 1,000,000 steel queries, on two threads
  valgrind   few, in buffers that have nothing after their end, for a run under valgrind
  page       in the static library's place the page's, in node; ./page builds it
prints what was compared and '0 differences'; at a difference what it is, and exits with 1";

struct Run {
    amount: Amount,
    room: Room,
    threads: usize,
    /// Whether everything that can come up has to.
    varied: bool,
}

fn run(name: &str) -> Option<Run> {
    let (amount, room, threads, varied) = match name {
        "short" => (SHORT, Room::Guarded, 1, true),
        "long" => (LONG, Room::Guarded, 2, true),
        "valgrind" => (UNDER_VALGRIND, Room::Exact, 1, false),
        _ => return None,
    };
    Some(Run {
        amount,
        room,
        threads,
        varied,
    })
}

/// A line after every tenth.
fn compare_part(
    job: &Job,
    part: Part,
    threads: usize,
    tally: &mut Tally,
) -> Result<(), Difference> {
    let began = Instant::now();
    for tenth in 0..10 {
        let cases = part.cases * tenth / 10..part.cases * (tenth + 1) / 10;
        if cases.is_empty() {
            continue;
        }
        let done = grouped(cases.end * part.in_a_case);
        tally.merge(part.compare(job, cases, threads)?);
        let seconds = began.elapsed().as_secs();
        eprintln!("{done} {} compared, {seconds} s", part.name);
    }
    Ok(())
}

fn compare(job: &Job, run: &Run) -> Result<Tally, Difference> {
    let mut tally = Tally::default();
    for part in parts(run.amount) {
        compare_part(job, part, run.threads, &mut tally)?;
    }
    Ok(tally)
}

fn lacking(run: &Run, tally: &Tally) -> Vec<String> {
    match run.varied {
        true => variety::all(tally),
        false => Vec::new(),
    }
}

/// What the words of the command ask for.
struct Asked {
    run: Run,
    /// Whether the page's library stands in the static one's place.
    page: bool,
    seed: u64,
}

fn asked(words: &[String]) -> Option<Asked> {
    let (name, words) = words.split_first()?;
    let run = run(name)?;
    let (page, words) = match words {
        // Valgrind does not see into node.
        [page, words @ ..] if page == "page" && name != "valgrind" => (true, words),
        _ => (false, words),
    };
    let seed = match words {
        [] => 1,
        [seed] => seed.parse().ok()?,
        _ => return None,
    };
    Some(Asked { run, page, seed })
}

impl Asked {
    fn job(&self) -> Job {
        Job {
            seed: self.seed,
            room: self.run.room,
            calls: if self.page { PAGE } else { LIBRARY },
        }
    }

    fn lacking(&self) -> Option<Lacking> {
        self.page.then(page::lacking).flatten()
    }

    fn heading(&self) -> String {
        let library = if self.page {
            ", the page's library"
        } else {
            ""
        };
        format!("seed {}{library}\n", self.seed)
    }
}

fn main() -> ExitCode {
    let words: Vec<String> = env::args().skip(1).collect();
    let Some(asked) = asked(&words) else {
        eprintln!("{USAGE}");
        return ExitCode::from(2);
    };
    if let Some(lacking) = asked.lacking() {
        eprintln!("{}", lacking.words());
        return ExitCode::from(2);
    }
    let tally = match compare(&asked.job(), &asked.run) {
        Ok(tally) => tally,
        Err(difference) => {
            println!("{difference}");
            return ExitCode::FAILURE;
        }
    };
    print!("{}{}", asked.heading(), report(&tally));
    println!("0 differences");
    let lacking = lacking(&asked.run, &tally);
    for words in &lacking {
        println!("never came up: {words}");
    }
    match lacking.is_empty() {
        true => ExitCode::SUCCESS,
        false => ExitCode::FAILURE,
    }
}
