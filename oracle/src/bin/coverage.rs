//! `coverage [--library] TRACE..`: reads traces, and beside each NAME.trace its NAME.answers. Prints
//! how often each call was answered in each way, and fails if one that is pinned never came; with
//! --library, of those that the library's calls alone can lead to.

use oracle::coverage::{Counts, Demand};
use oracle::lines::lines;
use std::path::Path;
use std::process::ExitCode;

fn main() -> ExitCode {
    let mut words: Vec<String> = std::env::args().skip(1).collect();
    let all = words.len();
    words.retain(|word| word != "--library");
    let demand = if words.len() < all {
        Demand::LibraryAlone
    } else {
        Demand::All
    };
    let mut counts = Counts::default();
    for path in &words {
        if let Err(why) = count_file(Path::new(path), &mut counts) {
            eprintln!("{path}: {why}");
            return ExitCode::FAILURE;
        }
    }
    println!("{counts}");
    let missing = counts.missing(demand);
    missing.iter().for_each(|way| println!("missing: {way}"));
    if missing.is_empty() {
        ExitCode::SUCCESS
    } else {
        ExitCode::FAILURE
    }
}

fn count_file(path: &Path, counts: &mut Counts) -> Result<(), String> {
    let read = |path: &Path| std::fs::read(path).map_err(|e| e.to_string());
    let trace = read(path)?;
    let answers = read(&path.with_extension("answers"))?;
    if lines(&trace).count() != lines(&answers).count() {
        return Err("as many answers as calls are needed".into());
    }
    for (call, answer) in lines(&trace).zip(lines(&answers)) {
        let answer = String::from_utf8_lossy(answer);
        let counted = counts.count(call, &answer);
        counted.ok_or_else(|| format!("not an answer: {answer}"))?;
    }
    Ok(())
}
