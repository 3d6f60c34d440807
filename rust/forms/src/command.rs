use std::fmt::Write;

use lupaniele::{Action, Command, Language, Mark, Mode, Version};

use crate::{Got, Line, mark, pair, payload, read_payload};

/// The bytes of a command in one line; bytes that say no command, as `bytes 03 02 ..`.
///
/// ```
/// use lupaniele::{Command, Mark, Pair, Stamp, Version};
/// let stamp = Stamp::new(1, 1, 0);
/// let write = Command::write_original(0, b"205").exclusive(Pair::new(stamp, stamp)).leaving(Mark::new(1, 7));
/// let line = r#"exclusive write original of card 0 by (1.1.0, 1.1.0) next (1, 7) text "205""#;
/// assert_eq!(forms::command(Version::One, &write.to_bytes(Version::One)?), line);
/// assert_eq!(forms::command(Version::One, &[3, 2]), "bytes 03 02");
/// # Ok::<(), lupaniele::BuildError>(())
/// ```
#[must_use]
pub fn command(version: Version, bytes: &[u8]) -> String {
    let Ok(command) = Command::parse(version, bytes) else {
        return crate::log::hex("bytes", bytes);
    };
    let mode = match command.mode {
        Mode::Shared => "shared",
        Mode::Exclusive => "exclusive",
    };
    let (action, card, by) = (command.action, command.card, pair(command.verifier));
    let what = match action {
        Action::ReadTranslation(language) | Action::WriteTranslation { language, .. } => {
            format!("{}{}", action.act(), in_language(version, language))
        }
        action => action.act().to_string(),
    };
    let mut line = format!("{mode} {what} of card {card} by {by}");
    if let Some(update) = command.update {
        let _ = write!(line, " opening {}", pair(update));
    }
    for (name, next) in [("expected", command.expected), ("next", command.next)] {
        if next != Mark::NONE {
            let _ = write!(line, " {name} {}", mark(next));
        }
    }
    match action {
        Action::WriteOriginal(text) => {
            let _ = write!(line, " {}", payload(text));
        }
        Action::WriteTranslation { edition, text, .. } => {
            let _ = write!(line, " edition {edition} {}", payload(text));
        }
        _ => {}
    }
    line
}

/// Behind `translation`: nothing in version 1, which has one language.
pub(crate) fn in_language(version: Version, language: Language) -> String {
    match version {
        Version::One => String::new(),
        Version::Two => format!(" in {language}"),
    }
}

/// The bytes of the command that a line says.
///
/// # Errors
///
/// Where the line is not as [`command`] writes it, or says what no command of this version does.
///
/// ```
/// use lupaniele::Version;
/// let mut line = forms::Line::new(1, "shared read translation in language 2 of card 0 by (2.2.0, 1.1.0)")?;
/// assert_eq!(forms::read_command(&mut line.clone(), Version::Two)?.len(), 68);
/// let wrong = forms::read_command(&mut line, Version::One).unwrap_err();
/// assert_eq!(wrong.to_string(), "line 1, column 37: version 1 has no language 2: it has language 0 alone");
/// # Ok::<(), forms::Wrong>(())
/// ```
pub fn read_command(line: &mut Line, version: Version) -> Got<Vec<u8>> {
    if line.takes("bytes") {
        return line.hex();
    }
    let front = line.clone();
    let mode = match () {
        () if line.takes("shared") => Mode::Shared,
        () if line.takes("exclusive") => Mode::Exclusive,
        () => return line.wrong("a command is due, `shared ..` or `exclusive ..`"),
    };
    let act = read_act(line, version)?;
    line.words("of card")?;
    let card = line.u16_of("the card")?;
    line.words("by")?;
    let verifier = line.pair()?;
    let update = match line.takes("opening") || line.takes("update") {
        true => Some(line.pair()?),
        false => None,
    };
    let mut marked = |name: &str| match line.takes(name) {
        true => line.mark(),
        false => Ok(Mark::NONE),
    };
    let (expected, next) = (marked("expected")?, marked("next")?);
    let text = act.read_text(line)?;
    let command = Command {
        update,
        expected,
        next,
        ..Command::doing(card, act.action(&text)).under(mode, verifier)
    };
    let bytes = command.to_bytes(version);
    bytes.or_else(|why| front.says(why.to_string()))
}

/// What a command does, before its edition and its text are read.
#[derive(Clone, Copy)]
enum Act {
    ReadOriginal,
    ReadTranslation(Language),
    WriteOriginal,
    WriteTranslation(Language),
    Verify,
}

/// An edition and a text, as far as an act has them.
type Written = (u16, Vec<u8>);

impl Act {
    fn read_text(self, line: &mut Line) -> Got<Written> {
        match self {
            Act::WriteOriginal => Ok((0, read_payload(line)?)),
            Act::WriteTranslation(_) => {
                line.words("edition")?;
                let edition = line.u16_of("the edition that it is made from")?;
                Ok((edition, read_payload(line)?))
            }
            _ => Ok((0, Vec::new())),
        }
    }

    fn action(self, (edition, text): &Written) -> Action<'_> {
        match self {
            Act::ReadOriginal => Action::ReadOriginal,
            Act::ReadTranslation(language) => Action::ReadTranslation(language),
            Act::WriteOriginal => Action::WriteOriginal(text),
            Act::WriteTranslation(language) => Action::WriteTranslation {
                language,
                edition: *edition,
                text,
            },
            Act::Verify => Action::Verify,
        }
    }
}

fn read_act(line: &mut Line, version: Version) -> Got<Act> {
    if line.takes("verify") {
        return Ok(Act::Verify);
    }
    let reads = line.takes("read");
    if !reads && !line.takes("write") {
        return line.wrong("an act is due, `read`, `write` or `verify`");
    }
    match (read_side(line, version)?, reads) {
        (None, true) => Ok(Act::ReadOriginal),
        (None, false) => Ok(Act::WriteOriginal),
        (Some(language), true) => Ok(Act::ReadTranslation(language)),
        (Some(language), false) => Ok(Act::WriteTranslation(language)),
    }
}

/// `original` for none, or `translation` with its language.
pub(crate) fn read_side(line: &mut Line, version: Version) -> Got<Option<Language>> {
    if line.takes("original") {
        return Ok(None);
    }
    if !line.takes("translation") {
        return line.wrong("`original` or `translation` is due");
    }
    if !line.takes("in") {
        return Ok(Some(Language::First));
    }
    line.words("language")?;
    let front = line.clone();
    let number = line.u16_of("the language")?;
    let language = u8::try_from(number).ok().and_then(Language::from_number);
    match language.filter(|language| version.languages().contains(language)) {
        Some(language) => Ok(Some(language)),
        None => front.says(format!(
            "{version} has no language {number}: {}",
            has(version)
        )),
    }
}

/// Which languages a version has.
fn has(version: Version) -> String {
    match version.languages() {
        [only] => format!("it has {only} alone"),
        [first, .., last] => format!("it has {first} to {}", last.number()),
        [] => "it has none".into(),
    }
}
