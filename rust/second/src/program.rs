//! The program's whole output for any standard input (rules 8.3 to 8.5). It
//! reads version 1 alone.

use crate::format::Format::V1;
use crate::image::Layout;
use crate::store::Answer;
use crate::stream;

/// The most bytes the program takes.
pub const INPUT_LIMIT: usize = 65_536;

/// All that the program prints for this standard input.
pub fn output(input: &[u8]) -> String {
    if input.len() > INPUT_LIMIT {
        return "too long\n".to_owned();
    }
    match split(input) {
        Some((layout, image, commands)) => run(layout, image, commands),
        None => "bad store\n".to_owned(),
    }
}

/// The sound image in front of the input (rule 2.9), and the stream behind it.
fn split(input: &[u8]) -> Option<(Layout, &[u8], &[u8])> {
    let size = Layout::of_header(V1, input)?.size();
    let (image, commands) = input.split_at_checked(size)?;
    Some((Layout::of_sound(V1, image)?, image, commands))
}

/// Runs the stream (rule 8.5) and prints the lines (rule 8.4).
fn run(layout: Layout, image: &[u8], commands: &[u8]) -> String {
    let mut image = image.to_vec();
    let mut reply = vec![0; layout.room()];
    let (answers, walk) = stream::run(V1, &mut image, commands, &mut reply);
    let mut lines = vec![format!("cards {}\n", layout.cards())];
    lines.extend((1_u64..).zip(&answers).map(line));
    lines.push(match walk.cut {
        true => format!("cut {}\n", commands.len().saturating_sub(walk.place)),
        false => "end\n".to_owned(),
    });
    lines.concat()
}

/// The line of one command (rule 8.4).
fn line((count, answer): (u64, &Answer)) -> String {
    let fields = answer.fields.numbers().map(|field| field.to_string());
    format!("{count} {} {}\n", answer.number, fields.join(" "))
}
