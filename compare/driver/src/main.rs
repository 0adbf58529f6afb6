//! Compares our archive with the published text over our stand-ins: driver CASES SEED
//! The last line has the counts. It ends with 1 where something differs that is no departure, after the smallest input that was found.
mod compare;
mod departures;
mod faults;
mod groups;
mod ours;
mod published;
mod random;
mod readers;
mod run;

use std::process::ExitCode;
use std::time::Instant;

use compare::Case;
use departures::NAMES;
use groups::{Group, EXHAUSTIVE, RANDOM, RANDOM_PART, WHOLE};
use run::{run, shrink, Counts, Work};

/// A case as it is shown: bytes in hex; of the numbers those that are not 0, each with its place.
fn shown(case: &Case) -> String {
    let numbers = case.numbers.iter().enumerate().filter(|(_, number)| **number != 0).map(|(at, number)| format!(" [{at}]={number}"));
    let bytes: String = case.bytes.iter().map(|byte| format!("{byte:02X}")).collect();
    format!("{:?}{} {}", case.kind, numbers.collect::<String>(), if bytes.is_empty() { "-" } else { &bytes })
}

fn show_smallest(different: Vec<Case>) {
    let small =
        different.into_iter().map(shrink).min_by_key(|(case, _)| (case.bytes.len(), case.numbers.iter().filter(|number| **number != 0).count()));
    if let Some((case, what)) = small {
        println!("different: {}\n    {what}", shown(&case));
    }
}

fn last_line(counts: &Counts, others: usize) -> String {
    let by_name = NAMES.iter().zip(counts.departures).map(|(name, many)| format!("{name} {many}, "));
    format!("{} cases, differences by departure: {}others {others}", counts.cases, by_name.collect::<String>())
}

fn main() -> ExitCode {
    let mut words = std::env::args().skip(1);
    let (Some(Ok(cases)), Some(Ok(seed)), None) = (words.next().map(|word| word.parse::<u64>()), words.next().map(|word| word.parse()), words.next())
    else {
        eprintln!("driver CASES SEED");
        return ExitCode::from(2);
    };
    faults::put_in();
    // The text panics on purpose in departure (e); what is told of any other panic is told with its case.
    std::panic::set_hook(Box::new(|_| {}));
    println!("seed {seed}");
    let mut total = Counts::default();
    let step = WHOLE.div_ceil(cases.max(1)).clamp(1, 16) as usize;
    for group in 0..=EXHAUSTIVE.len() {
        let start = Instant::now();
        let left = cases.saturating_sub(total.cases);
        let (name, (counts, different)) = match EXHAUSTIVE.get(group) {
            Some(Group { name, parts, make }) => {
                let parts = (0..*parts).step_by(step);
                (*name, run(Work { make: *make, group, parts, limit: |_| u64::MAX }, seed))
            }
            None => {
                let limit = |part: u32| (left - u64::from(part) * RANDOM_PART).min(RANDOM_PART);
                let parts = 0..left.div_ceil(RANDOM_PART) as u32;
                ("random", run(Work { make: RANDOM, group, parts, limit }, seed))
            }
        };
        total.add(&counts);
        println!("{:>9} cases in {:.1} s: {name}", counts.cases, start.elapsed().as_secs_f32());
        if !different.is_empty() {
            let others = different.len();
            show_smallest(different);
            println!("{}", last_line(&total, others));
            return ExitCode::FAILURE;
        }
    }
    println!("{}", last_line(&total, 0));
    ExitCode::SUCCESS
}
