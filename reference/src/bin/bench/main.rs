//! `cargo run --release --bin bench [BAR] [WORDS]`: the proved library beside three implementations without
//! proofs, in processor time: one made for speed in safe Rust (`reference::safe`), which the bars are held
//! against, one made for speed alone (`reference::fast`), and the clear reference. With WORDS only rows
//! whose name has them. The last line is the worst ratio of library to safe; if it is above BAR, the bench
//! fails.

use std::env;
use std::process::ExitCode;

mod calls;
mod clock;
mod growth;
mod making;
mod measure;
mod policies;
mod programs;
mod runs;
mod table;
mod updates;

use table::Table;

fn main() -> ExitCode {
    let mut words: Vec<String> = env::args().skip(1).collect();
    let bar = words.first().and_then(|word| word.parse::<f64>().ok());
    if bar.is_some() {
        words.remove(0);
    }
    let mut table = Table::new(words.join(" "));
    policies::rows(&mut table);
    programs::rows(&mut table);
    runs::rows(&mut table);
    updates::rows(&mut table);
    growth::rows(&mut table);
    let worst = table.print_worst();
    match bar {
        Some(bar) if worst > bar => ExitCode::FAILURE,
        _ => ExitCode::SUCCESS,
    }
}
