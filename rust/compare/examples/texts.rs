//! What comparing two texts costs, by their size: 8, 16, 32 and 64 KB of drops, and of sections that nest 8 deep. `cargo run --release -p compare --example texts`.

use std::time::Instant;

use compare::texts::proved;

/// A section of these steps.
fn section(steps: &[Vec<u8>]) -> Vec<u8> {
    let mut bytes = vec![1, steps.len() as u8];
    bytes.extend(steps.concat());
    bytes
}

/// A step that is a section, so many times around the innermost one.
fn nested(times: usize, steps: &[Vec<u8>]) -> Vec<u8> {
    let inner = (1..times).fold(section(steps), |text, _| [&[1, 1, 4], &text[..]].concat());
    [vec![4], inner].concat()
}

/// About so many bytes: sections of 255 such steps.
fn wide(bytes: usize, step: &[u8]) -> Vec<u8> {
    let many = nested(1, &vec![step.to_vec(); 255]);
    section(&vec![many.clone(); bytes / many.len()])
}

/// The last step of each of 8 sections of 255 steps is the next section.
fn deepest() -> Vec<u8> {
    let mut steps = vec![vec![2, 0]; 255];
    for _ in 1..8 {
        let inner = [vec![4], section(&steps)].concat();
        steps = vec![vec![2, 0]; 254];
        steps.push(inner);
    }
    section(&steps)
}

fn main() {
    let drop = [3, 67, 2, 8];
    let chain = nested(6, &[]);
    for (name, step) in [("drops", &drop[..]), ("sections 8 deep", &chain)] {
        for size in [8, 16, 32, 64] {
            let text = wide(size * 1024, step);
            let rounds = 20_000 / size;
            let started = Instant::now();
            let agreed = (0..rounds).all(|_| proved(&text, &text) == (0, 0));
            let nanoseconds = started.elapsed().as_nanos() as f64 / rounds as f64;
            assert!(agreed);
            let each = nanoseconds / text.len() as f64;
            println!(
                "{name}: {} bytes, {:.0} us, {each:.2} ns a byte",
                text.len(),
                nanoseconds / 1e3
            );
        }
    }
    let text = deepest();
    for size in [16, 32, 64, 128, 256, 512] {
        let text = text.clone();
        let thread = std::thread::Builder::new().stack_size(size * 1024);
        let number = thread.spawn(move || proved(&text, &text)).unwrap().join();
        println!("stack of {size} KB: {number:?}");
    }
}
