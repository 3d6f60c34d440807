//! By instructions: this program runs itself once under callgrind, which
//! counts inside `lupaniele_bench_counted` alone and writes one file for each
//! call of it.

use std::path::Path;
use std::process::{Command, Stdio};

use crate::operations::Operation;
use crate::sides::{work as work_of, Lent, Side};
use crate::workloads::Workload;

/// The instructions of a workload, once.
pub struct Count {
    pub rust: u64,
    pub tuned: u64,
    pub ours: u64,
}

impl Count {
    /// Ours by the straightforward version's.
    pub fn ratio(&self) -> f64 {
        self.ours as f64 / self.rust as f64
    }
}

/// The instructions of every workload, and of every operation ours and the
/// other's.
pub struct Counts {
    pub workloads: Vec<Count>,
    pub operations: Vec<[u64; 2]>,
}

const SIDES: [Side; 3] = [Side::Rust, Side::Tuned, Side::Ours];

/// What callgrind looks at.
#[no_mangle]
#[inline(never)]
fn lupaniele_bench_counted(work: &mut dyn FnMut()) {
    work();
}

/// Each workload once by each side, then each operation once by both: what
/// runs under callgrind.
pub fn work(all: &[Workload], operations: &[Operation]) {
    for workload in all {
        for side in SIDES {
            let mut lent = Lent::new(workload);
            lupaniele_bench_counted(&mut || work_of(side, workload, &mut lent));
            std::hint::black_box(&lent);
        }
    }
    for operation in operations {
        for mut ready in operation.made() {
            lupaniele_bench_counted(&mut || ready.work());
            std::hint::black_box(&ready);
        }
    }
}

/// The instructions of everything; none where there is no valgrind.
pub fn counted(all: &[Workload], operations: &[Operation]) -> Option<Counts> {
    let folder = std::env::temp_dir().join(format!("lupaniele-bench-{}", std::process::id()));
    std::fs::create_dir_all(&folder).ok()?;
    let totals = totals_in(&folder, SIDES.len() * all.len() + 2 * operations.len());
    std::fs::remove_dir_all(&folder).ok();
    let totals = totals?;
    let (runs, pairs) = totals.split_at(SIDES.len() * all.len());
    let runs = runs.chunks_exact(SIDES.len());
    Some(Counts {
        workloads: runs
            .map(|count| Count {
                rust: count[0],
                tuned: count[1],
                ours: count[2],
            })
            .collect(),
        operations: pairs
            .chunks_exact(2)
            .map(|pair| [pair[0], pair[1]])
            .collect(),
    })
}

/// What callgrind counted in each of so many calls.
fn totals_in(folder: &Path, calls: usize) -> Option<Vec<u64>> {
    let program = std::env::current_exe().ok()?;
    let out = folder.join("out");
    let status = Command::new("valgrind")
        .args(["--tool=callgrind", "--collect-atstart=no"])
        .arg("--toggle-collect=lupaniele_bench_counted")
        .arg("--dump-after=lupaniele_bench_counted")
        .arg(format!("--callgrind-out-file={}", out.display()))
        .arg(program)
        .arg("counted")
        .stdout(Stdio::null())
        .stderr(Stdio::null())
        .status();
    if !status.is_ok_and(|status| status.success()) {
        return None;
    }
    let total = |call: usize| -> Option<u64> {
        let text = std::fs::read_to_string(format!("{}.{call}", out.display())).ok()?;
        let line = text.lines().find_map(|line| line.strip_prefix("summary: "));
        line?.trim().parse().ok()
    };
    (1..=calls).map(total).collect()
}
