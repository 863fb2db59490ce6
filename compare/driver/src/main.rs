//! Holds the library beside the crate: `driver [--seed S] [--cases N] [--huge] [--trace]`, or `driver --list questions|answers` for the gate's list.

mod cases;
mod fixed;
mod list;
mod tally;

use driver::settings;
use std::env;
use std::process::ExitCode;
use tally::Check;

/// From so many cases on, an answer that no call met is a failure too.
const MANY: u64 = 500;

/// One case in so many has a large image.
const LARGE: u64 = 500;

struct Wanted {
    seed: u64,
    cases: u64,
    huge: bool,
    /// Each seed is printed before its cases, so that it is known after a crash.
    trace: bool,
    list: Option<String>,
}

fn wanted() -> Option<Wanted> {
    let mut wanted = Wanted { seed: 1, cases: 20_000, huge: false, trace: false, list: None };
    let mut words = env::args().skip(1);
    while let Some(word) = words.next() {
        match word.as_str() {
            "--seed" => wanted.seed = words.next()?.parse().ok()?,
            "--cases" => wanted.cases = words.next()?.parse().ok()?,
            "--huge" => wanted.huge = true,
            "--trace" => wanted.trace = true,
            "--list" => wanted.list = Some(words.next()?),
            _ => return None,
        }
    }
    Some(wanted)
}

/// The cases of one seed.
fn case(seed: u64, check: &mut Check) -> Result<(), String> {
    cases::blocks(seed, check)?;
    cases::single(seed, check)?;
    cases::list(seed, check)?;
    cases::series(seed, check)?;
    settings::series(seed, &mut check.settings)?;
    cases::report(seed, check)?;
    if seed.is_multiple_of(LARGE) {
        cases::large(seed, check)?;
    }
    Ok(())
}

fn run(wanted: &Wanted, check: &mut Check) -> Result<(), String> {
    fixed::bench_values(check)?;
    if wanted.huge {
        fixed::huge(check)?;
    }
    for i in 0..wanted.cases {
        let seed = wanted.seed.wrapping_add(i);
        if wanted.trace {
            eprintln!("seed {seed}");
        }
        case(seed, check).map_err(|differs| format!("{differs}\nAgain: --seed {seed} --cases 1"))?;
    }
    Ok(())
}

fn main() -> ExitCode {
    let Some(wanted) = wanted() else {
        eprintln!("driver [--seed S] [--cases N] [--huge] [--trace], or driver --list questions|answers");
        return ExitCode::FAILURE;
    };
    match wanted.list.as_deref() {
        Some("questions") => print!("{}", list::questions()),
        Some(_) => print!("{}", list::answers()),
        None => {
            let mut check = Check::default();
            if let Err(differs) = run(&wanted, &mut check) {
                println!("{differs}\nNOT THE SAME");
                return ExitCode::FAILURE;
            }
            print!("{}", check.summary());
            if let Some(unmet) = check.never_met().filter(|_| wanted.cases >= MANY) {
                println!("{unmet}\nNOT ENOUGH");
                return ExitCode::FAILURE;
            }
            println!("the same: {} cases from seed {}", wanted.cases, wanted.seed);
        }
    }
    ExitCode::SUCCESS
}
