//! `lupaniele play`: a story, told or drawn.

use std::path::Path;

use lupaniele::{Broken, Image, Log};
use story::Story;

use crate::args::Args;
use crate::input::{self, LARGEST_TEXT};
use crate::outcome::{Done, Failed, Outcome};

pub fn run(args: &Args) -> Outcome {
    let path = args.path(0);
    let forms = ["--svg", "--text", "--input"]
        .iter()
        .filter(|name| args.has(name))
        .count();
    if forms > 1 {
        return Err(Failed::unusable(
            "--svg, --text and --input are three forms; choose one",
        ));
    }
    let story = read(path)?;
    match () {
        () if args.has("--svg") => Done::well(story.drawn()),
        () if args.has("--text") => Done::well(story.write()),
        () if args.has("--input") => Done::well(story.to_input().map_err(input::wrong(path))?),
        () => Done::well(story.told()),
    }
}

/// The story in a text, or in an input of the program: an image and a stream.
fn read(path: &Path) -> Result<Story, Failed> {
    let bytes = input::bytes(path, LARGEST_TEXT, "a story").map_err(Failed::wrong_use)?;
    let told = |told: String| Failed::unusable(format!("{}: {told}", path.display()));
    if bytes.is_empty() {
        return Err(told("the file is empty, and a story is due".into()));
    }
    if Image::check(&bytes[..]).err() != Some(Broken::Header) {
        return Story::from_input(&bytes).map_err(|broken| told(input::unsound(&bytes, &broken)));
    }
    if Log::check(&bytes[..]).is_ok() {
        return Err(told("this is a log, and a story is due".into()));
    }
    let text = forms::decoded(&bytes).map_err(input::wrong(path))?;
    Story::read(text).map_err(input::wrong(path))
}
