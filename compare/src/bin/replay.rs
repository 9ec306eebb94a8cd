//! Reads a dumped case on standard input, runs it again and prints the
//! answers of the plain run and of the fast run in both wordings, and with the
//! feature `engine` the archive's.

use compare::cases::Case;
use compare::check::{self, BY_CACHE, BY_HISTORY};
use compare::dump;
use std::io::Read;
use std::process::ExitCode;

/// With the feature `engine`: the archive on the same case.
#[cfg(feature = "engine")]
fn of_archive(case: &Case) -> Vec<Result<(), String>> {
    let archive = &compare::guard::Guarded(&compare::engine::Archive);
    println!("archive, plain: {:?}", check::after_plain(archive, case).answer);
    println!("archive, fast: {:?}", check::after_fast(archive, case).answer);
    vec![check::same_case(&BY_HISTORY, archive, case), check::keeps_promises(archive, case)]
}

#[cfg(not(feature = "engine"))]
fn of_archive(_: &Case) -> Vec<Result<(), String>> {
    vec![]
}

fn main() -> ExitCode {
    let mut text = String::new();
    if std::io::stdin().read_to_string(&mut text).is_err() {
        return ExitCode::FAILURE;
    }
    let Some(case) = dump::read_case(&text) else {
        eprintln!("no whole case on standard input");
        return ExitCode::FAILURE;
    };
    let plain = check::after_plain(&BY_CACHE, &case);
    let cache = check::after_fast(&BY_CACHE, &case);
    let history = check::after_fast(&BY_HISTORY, &case);
    println!("plain: {:?}", plain.answer);
    println!("fast by cache: {:?}", cache.answer);
    println!("fast by history: {:?}", history.answer);
    let mut verdicts = vec![
        check::same_case(&BY_CACHE, &BY_HISTORY, &case),
        check::keeps_promises(&BY_CACHE, &case),
    ];
    verdicts.extend(of_archive(&case));
    for verdict in verdicts {
        if let Err(text) = verdict {
            println!("{}", text.lines().next().unwrap_or(""));
        }
    }
    ExitCode::SUCCESS
}
