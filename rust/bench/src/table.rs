//! The tables, as Markdown.

use crate::clock::Times;
use crate::instructions::{Count, Counts};
use crate::operations::Operation;
use crate::workloads::{Work, Workload};

/// The goals by the straightforward version's time, and by the limit's if there
/// is one; by the tuned version's it is 1.0 everywhere.
const GOALS: [(&str, f64, Option<f64>); 10] = [
    ("verify, full texts", 0.5, None),
    ("write 512, full texts", 0.65, Some(2.0)),
    ("write 10-40, full texts", 0.5, Some(2.0)),
    ("read, full texts", 0.5, Some(2.0)),
    ("mix, full texts", 0.5, Some(2.0)),
    ("verify, full texts, version 2", 0.6, None),
    ("write 512, full texts, version 2", 0.6, Some(2.0)),
    ("write 10-40, full texts, version 2", 0.6, Some(2.0)),
    ("read, full texts, version 2", 0.6, Some(2.0)),
    ("mix, full texts, version 2", 0.6, Some(2.0)),
];

/// Prints the goals, and how near they are: by the clock if there are times,
/// and by instructions.
pub fn print_goals(all: &[Workload], times: Option<&[Times]>, counts: Option<&Counts>) {
    println!("| | goal | time | instructions | for a command | tuned: goal | time | instructions | limit: goal | time |");
    println!("|---|---:|---:|---:|---:|---:|---:|---:|---:|---:|");
    let told = |number: Option<f64>| number.map_or(String::new(), |number| format!("{number:.2}"));
    for (name, goal, limit) in GOALS {
        let Some(at) = all.iter().position(|workload| workload.name == name) else {
            continue;
        };
        let time = times.map(|times| times[at]);
        let count = counts.map(|counts| &counts.workloads[at]);
        let commands = all[at].commands() as f64;
        println!(
            "| {name} | {goal:.2} | {} | {} | {} | 1.00 | {} | {} | {} | {} |",
            told(time.map(|time| time.ratio())),
            told(count.map(Count::ratio)),
            count.map_or(String::new(), |count| format!(
                "{:.0}",
                count.ours as f64 / commands
            )),
            told(time.map(|time| time.ours / time.tuned)),
            told(count.map(|count| count.ours as f64 / count.tuned as f64)),
            told(limit),
            told(time.map(|time| time.ours / time.limit)),
        );
    }
}

/// Prints the table, a part for each group: by the clock and by instructions,
/// or by instructions alone.
pub fn print(all: &[Workload], times: Option<&[Times]>, counts: Option<&Counts>) {
    let mut group = "";
    for (at, workload) in all.iter().enumerate() {
        if workload.group != group {
            group = workload.group;
            println!("\n### {group}\n");
            head(times.is_some());
        }
        let commands = match workload.work {
            Work::Run(_) => workload.commands().to_string(),
            Work::Answer(_) => "1".into(),
            Work::Check(_) => "0".into(),
        };
        print!("| {} | {commands} |", workload.name);
        if let Some(times) = times {
            by_the_clock(&times[at]);
        }
        by_instructions(counts.and_then(|counts| counts.workloads.get(at)));
    }
    println!();
    for (workload, times) in all.iter().zip(times.unwrap_or_default()) {
        if let Some(at_once) = times.at_once {
            println!(
                "- {}: the Rust check that looks at every byte takes {:.2} µs, ours {:.2} times that",
                workload.name,
                at_once / 1e3,
                times.ours / at_once
            );
        }
    }
}

fn head(clock: bool) {
    let (mut words, mut lines) = (String::from("| | commands |"), String::from("|---|---:|"));
    if clock {
        words += " Rust, µs | tuned, µs | ours, µs | limit, µs | by Rust | by tuned | by limit |";
        lines += "---:|---:|---:|---:|---:|---:|---:|";
    }
    println!("{words} instructions: Rust | tuned | ours | by Rust | by tuned |");
    println!("{lines}---:|---:|---:|---:|---:|");
}

fn by_the_clock(times: &Times) {
    print!(
        " {:.2} | {:.2} | {:.2} | {:.2} | **{:.2}** | {:.2} | {:.2} |",
        times.rust / 1e3,
        times.tuned / 1e3,
        times.ours / 1e3,
        times.limit / 1e3,
        times.ratio(),
        times.ours / times.tuned,
        times.ours / times.limit
    );
}

fn by_instructions(count: Option<&Count>) {
    match count {
        Some(count) => println!(
            " {} | {} | {} | {:.2} | {:.2} |",
            count.rust,
            count.tuned,
            count.ours,
            count.ratio(),
            count.ours as f64 / count.tuned as f64
        ),
        None => println!(" | | | | |"),
    }
}

/// Prints the operations beside the second program's.
pub fn print_operations(
    operations: &[Operation],
    times: Option<&[[f64; 2]]>,
    counts: Option<&Counts>,
) {
    println!("\n### Other operations, beside the second program\n");
    println!("| | ours, µs | second, µs | instructions: ours | second | ratio |");
    println!("|---|---:|---:|---:|---:|---:|");
    for (at, operation) in operations.iter().enumerate() {
        print!("| {} |", operation.name);
        match times.and_then(|times| times.get(at)) {
            Some([ours, second]) => print!(" {:.2} | {:.2} |", ours / 1e3, second / 1e3),
            None => print!(" | |"),
        }
        match counts.and_then(|counts| counts.operations.get(at)) {
            Some([ours, second]) => {
                println!(
                    " {ours} | {second} | {:.2} |",
                    *ours as f64 / *second as f64
                );
            }
            None => println!(" | | |"),
        }
    }
}
