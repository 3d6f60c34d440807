//! `lupaniele compare`: whether two structured texts say the same drops.

use std::path::Path;

use lupaniele::{Image, LARGEST_IMAGE, Language, Text, Version, agree};

use crate::args::Args;
use crate::input;
use crate::outcome::{Done, Failed, Outcome};
use crate::show::{CARDS, behind, called, card};

pub fn run(args: &Args) -> Outcome {
    let number: Option<u16> = args.number("--card", CARDS).map_err(Failed::unusable)?;
    match (number, args.word(1)) {
        (Some(number), None) => on_card(args, number),
        (None, Some(_)) => {
            let (first, second) = (args.path(0), args.path(1));
            compared(
                (&first.display().to_string(), &text(first)?),
                (&second.display().to_string(), &text(second)?),
            )
        }
        (Some(_), Some(_)) => Err(Failed::unusable(
            "--card is of one image: name no second file",
        )),
        (None, None) => Err(Failed::unusable(
            "SECOND is missing, or --card K of an image",
        )),
    }
}

/// Original and translation of a card, both as they stand there.
fn on_card(args: &Args, number: u16) -> Outcome {
    let image = input::image(args.path(0))?;
    let card = card(&image, number)?;
    let version = image.version();
    let languages = match version {
        Version::One => "an image of version 1 has language 0 alone",
        Version::Two => "an image of version 2 has the languages 0 to 3",
    };
    let wanted: Option<u8> = args
        .number("--language", languages)
        .map_err(Failed::unusable)?;
    let language = Language::from_number(wanted.unwrap_or(0));
    let Some((language, text)) =
        language.and_then(|language| Some((language, card.translation(language)?)))
    else {
        let wanted = wanted.unwrap_or(0);
        return Err(Failed::unusable(format!(
            "--language {wanted}: {languages}"
        )));
    };
    let name = called(version, language);
    let missing = match (card.edition(), card.translated_from(language)) {
        (0, _) => Some("its original"),
        (_, Some(0)) => Some(name.as_str()),
        _ => None,
    };
    if let Some(missing) = missing {
        let told = format!(
            "card {number}: {missing} is not written yet, so there is nothing to compare\n"
        );
        return Done::saying(told, false);
    }
    let mut done = compared(("original", card.original()), (&name, text))?;
    done.out
        .splice(0..0, format!("card {number}: ").into_bytes());
    if let (Some(editions), Some(from)) = (behind(&card, language), card.translated_from(language))
    {
        let told =
            format!("card {number}: {name} is BEHIND by {editions}, made from edition {from}\n");
        done.out.extend(told.into_bytes());
    }
    Ok(done)
}

/// The bytes of a structured text in a file: as they are, or as steps in words.
fn text(path: &Path) -> Result<Vec<u8>, Failed> {
    let bytes = input::bytes(path, LARGEST_IMAGE, "a structured text");
    let bytes = bytes.map_err(Failed::wrong_use)?;
    let told = |told: &str| Failed::unusable(format!("{}: {told}", path.display()));
    if bytes.is_empty() {
        return Err(told("the file is empty, and a structured text is due"));
    }
    if Image::check(&bytes[..]).is_ok() {
        return Err(told(
            "this is an image; compare the texts of a card with --card K",
        ));
    }
    if Text::read(&bytes).is_ok() {
        return Ok(bytes);
    }
    let form = forms::decoded(&bytes).map_err(input::wrong(path))?;
    let text = forms::read_steps(form).map_err(input::wrong(path))?;
    text.to_bytes().map_err(|why| told(&why.to_string()))
}

/// What is to be said of two texts, each with its name.
fn compared(first: (&str, &[u8]), second: (&str, &[u8])) -> Outcome {
    let (Ok(one), Ok(other)) = (Text::read(first.1), Text::read(second.1)) else {
        let ill = if Text::read(first.1).is_err() {
            first
        } else {
            second
        };
        let told = format!(
            "{}: this is no structured text, so its drops cannot be compared (rule 12.1)\n",
            ill.0
        );
        return Done::saying(told, false);
    };
    match (agree(first.1, second.1), forms::parted(&one, &other)) {
        (Ok(()), _) => Done::well(format!(
            "{} and {} agree: {}\n",
            first.0,
            second.0,
            drops(&one)
        )),
        (Err(parted), None) => Done::saying(format!("{parted} (rule 12.10)\n"), false),
        (Err(_), Some(parted)) => {
            let told = format!(
                "{} and {} differ (rule 12.10)\n{parted}\n",
                first.0, second.0
            );
            Done::saying(told, false)
        }
    }
}

/// How many drops a text has.
fn drops(text: &Text) -> String {
    fn count(text: &Text) -> usize {
        let counts = text.steps.iter().map(|step| match step {
            lupaniele::Step::Drop { .. } => 1,
            lupaniele::Step::Section(inner) => count(inner),
            lupaniele::Step::Words(_) => 0,
        });
        counts.sum()
    }
    match count(text) {
        1 => "1 drop is the same".into(),
        count => format!("{count} drops are the same"),
    }
}
