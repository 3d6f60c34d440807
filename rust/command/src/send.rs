//! `lupaniele send`: the commands of a list, each with its answer in words.

use std::path::Path;

use forms::{COLUMNS, cut, folded};
use lupaniele::{Action, Answer, Command, Image, Number, Version};

use crate::args::Args;
use crate::input;
use crate::outcome::{Done, Failed, Outcome};

/// The columns in front of a command and of its answer, for the number of the line.
const INDENT: usize = 5;

/// A line of a list with its number, on at most two lines of the screen.
pub fn numbered(line: usize, form: &str) -> String {
    format!("{line:>3}  {}\n", shortened(form, INDENT))
}

/// A form on at most two lines of the screen, so many columns from its edge.
pub fn shortened(form: &str, indent: usize) -> String {
    let whole = folded(form, indent);
    match whole.splitn(3, '\n').collect::<Vec<_>>()[..] {
        [first, second, _] => format!("{first}\n{}", cut(&format!("{second} …"), COLUMNS)),
        _ => whole,
    }
}

/// What is said under it.
pub fn under(words: &str) -> String {
    format!("{:INDENT$}{}\n", "", folded(words, INDENT))
}

pub fn run(args: &Args) -> Outcome {
    let (path, list) = (args.path(0), args.path(1));
    if args.has("--dry-run") {
        let mut image = input::image(path)?;
        let commands = read(list, image.version())?;
        let (out, accepted) = sent(&mut image, &commands);
        let told = format!(
            "{}{} is as it was (--dry-run)\n",
            counted(accepted, commands.len()),
            path.display()
        );
        return Done::saying(out + &told, accepted == commands.len());
    }
    let mut file = input::image_file(args.written(0).map_err(Failed::unusable)?)?;
    let commands = read(list, file.image().version())?;
    let before = file.image().clone();
    let saved = file.change(|image| sent(image, &commands));
    let (out, accepted) =
        saved.map_err(|why| Failed::unusable(format!("{}: {why}", path.display())))?;
    let state = match before == *file.image() {
        true => "is as it was",
        false => "is saved",
    };
    let told = format!(
        "{}{} {state}\n",
        counted(accepted, commands.len()),
        path.display()
    );
    Done::changed(out + &told, accepted == commands.len())
}

fn counted(accepted: usize, all: usize) -> String {
    match all - accepted {
        0 => format!("{accepted} accepted; "),
        refused => format!("{accepted} accepted, {refused} refused; "),
    }
}

/// The commands of a list in bytes, each with its line.
fn read(path: &Path, version: Version) -> Result<Vec<(usize, Vec<u8>)>, Failed> {
    let text = input::text(path, "a list of commands")?;
    let read = || {
        let mut commands = Vec::new();
        for mut line in forms::lines(&text)? {
            let command = forms::read_command(&mut line, version)?;
            line.done()?;
            commands.push((line.number(), command));
        }
        Ok(commands)
    };
    let commands = read().map_err(input::wrong(path))?;
    match commands.is_empty() {
        true => Err(Failed::unusable(format!(
            "{}: there is no command in it",
            path.display()
        ))),
        false => Ok(commands),
    }
}

/// Sends them in order; what is told of it, and how many were accepted.
fn sent(image: &mut Image, commands: &[(usize, Vec<u8>)]) -> (String, usize) {
    let (mut out, mut accepted) = (String::new(), 0);
    let mut reply = vec![0; image.room().into()];
    for (line, command) in commands {
        let before = image.clone();
        let answer = image.answer_bytes(command, &mut reply);
        accepted += usize::from(answer.is_accepted());
        out += &numbered(*line, &forms::command(image.version(), command));
        out += &told(&before, command, &answer, &reply);
    }
    (out, accepted)
}

/// The answer to a command, under its line.
fn told(before: &Image, command: &[u8], answer: &Answer, reply: &[u8]) -> String {
    let version = before.version();
    let parsed = Command::parse(version, command).ok();
    let card = parsed.and_then(|command| before.card(command.card));
    let told = forms::told(version, command, answer, card.as_ref());
    if answer.is_accepted() {
        let done = done(parsed.map(|command| command.action), answer, reply);
        return under(&format!("{}: {done}", told.short));
    }
    let because = match answer.number {
        Number::NoCard => {
            let last = before.count() - 1;
            format!("{}, and the cards are 0 to {last}", told.because)
        }
        _ => told.because,
    };
    let because = because.trim_end_matches('.');
    under(&format!("{}: {because}.", told.short)) + &under(told.now)
}

/// What an accepted command did.
fn done(action: Option<Action>, answer: &Answer, reply: &[u8]) -> String {
    let (edition, from) = (answer.edition, answer.translated_from);
    let text = || forms::payload(answer.text(reply));
    match action {
        Some(Action::ReadOriginal) => format!("edition {edition}, {}", text()),
        Some(Action::ReadTranslation(_)) => format!("made from edition {from}, {}", text()),
        Some(Action::WriteOriginal(_)) => format!("edition {edition} is written"),
        Some(Action::WriteTranslation { .. }) => {
            format!("the translation of edition {from} is written")
        }
        Some(Action::Verify) | None => format!("the pair is {}", forms::pair(answer.pair)),
    }
}
