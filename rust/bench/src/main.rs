//! The proved library against a straightforward Rust version, a tuned one and
//! the limit.
//!
//! `bench table SVG` compares, then measures by the clock and, where valgrind
//! is there, by instructions; it prints the tables and draws the picture.
//! `bench counts` compares, and prints the instructions alone: they are the
//! same on a machine that does other work beside.
//! `bench gate` compares, and fails if the proved library takes more
//! instructions than the straightforward version on any workload, or if
//! valgrind is not there to count them.

mod clock;
mod compared;
mod instructions;
mod limit;
mod operations;
mod picture;
mod plain;
mod sides;
mod table;
mod tuned;
mod workloads;

use operations::Operation;
use std::process::exit;
use workloads::Workload;

/// The most that the gate lets an instruction ratio be.
const MOST: f64 = 1.0;

fn main() {
    let words: Vec<String> = std::env::args().skip(1).collect();
    let words: Vec<&str> = words.iter().map(String::as_str).collect();
    let (all, operations) = (workloads::all(), operations::all());
    if words[..] == ["counted"] {
        return instructions::work(&all, &operations);
    }
    if !matches!(words[..], ["table", _] | ["counts"] | ["gate"]) {
        eprintln!("usage: bench table SVG | bench counts | bench gate");
        exit(2);
    }
    compared::or_exit(&all);
    operations::compared_or_exit(&operations);
    let counts = instructions::counted(&all, &operations);
    match words[..] {
        ["table", svg] => {
            let times = clock::measured(&all);
            table::print_goals(&all, Some(&times), counts.as_ref());
            table::print(&all, Some(&times), counts.as_ref());
            let other_times = operations::measured(&operations);
            table::print_operations(&operations, Some(&other_times), counts.as_ref());
            let drawn = picture::drawn(&all, &times);
            std::fs::write(svg, drawn).expect("the picture is written");
        }
        ["counts"] => {
            table::print_goals(&all, None, counts.as_ref());
            table::print(&all, None, counts.as_ref());
            table::print_operations(&operations, None, counts.as_ref());
        }
        _ => gate(&all, &operations, counts.as_ref()),
    }
}

fn gate(all: &[Workload], operations: &[Operation], counts: Option<&instructions::Counts>) {
    let Some(counts) = counts else {
        println!("bench: every answer, image and reply buffer is the same; but valgrind did not count the instructions: is it installed?");
        exit(1);
    };
    let mut worst = (0.0, "");
    for (workload, count) in all.iter().zip(&counts.workloads) {
        if count.ratio() > worst.0 {
            worst = (count.ratio(), &workload.name);
        }
    }
    println!(
        "bench: every answer, image and reply buffer is the same on {} workloads and {} other operations; at most {:.2} times the instructions of the straightforward version ({})",
        all.len(),
        operations.len(),
        worst.0,
        worst.1
    );
    if worst.0 > MOST {
        println!("bench: that is more than {MOST:.1}");
        exit(1);
    }
}
