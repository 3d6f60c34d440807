//! The words of the command line: a subcommand's names and options, as data; read without a further crate.

use std::collections::BTreeMap;
use std::ffi::{OsStr, OsString};
use std::path::Path;

/// An option of a subcommand: its name with `--` in front, and the name of its value if it has one.
pub struct Opt {
    pub name: &'static str,
    pub value: Option<&'static str>,
}

/// What a subcommand is called with, as a line for people; the names of its files and words, in order, the last
/// `optional` of which may be left out; and its options.
pub struct Usage {
    pub line: &'static str,
    pub names: &'static [&'static str],
    pub optional: usize,
    pub options: &'static [Opt],
}

/// What it was called with.
#[derive(Debug, Default)]
pub struct Args {
    words: Vec<OsString>,
    options: BTreeMap<&'static str, OsString>,
}

/// The words of a subcommand, read by its usage.
///
/// # Errors
///
/// What is wrong, and what would be right.
pub fn read(usage: &Usage, words: &[OsString]) -> Result<Args, String> {
    let mut args = Args::default();
    let (mut rest, mut ended) = (words.iter(), false);
    while let Some(word) = rest.next() {
        match word.to_str() {
            Some("--") if !ended => ended = true,
            Some(option) if !ended && option.starts_with('-') && option.len() > 1 => {
                let (name, value) = match option.split_once('=') {
                    Some((name, value)) => (name, Some(OsString::from(value))),
                    None => (option, None),
                };
                let option = known(usage, name)?;
                let value = valued(option, value, &mut rest)?;
                if args.options.insert(option.name, value).is_some() {
                    return Err(format!("{name} stands twice"));
                }
            }
            _ => args.words.push(word.clone()),
        }
    }
    enough(usage, &args.words)?;
    Ok(args)
}

fn known<'a>(usage: &'a Usage, name: &str) -> Result<&'a Opt, String> {
    let found = usage.options.iter().find(|option| option.name == name);
    found.ok_or_else(|| {
        let names: Vec<&str> = usage.options.iter().map(|option| option.name).collect();
        match (nearest(name, &names), names.is_empty()) {
            (Some(near), _) => format!("there is no option {name}; did you mean {near}?"),
            (None, true) => format!("there is no option {name}, nor any other"),
            (None, false) => format!("there is no option {name}; there is {}", names.join(", ")),
        }
    })
}

fn valued<'a>(
    option: &Opt,
    value: Option<OsString>,
    rest: &mut impl Iterator<Item = &'a OsString>,
) -> Result<OsString, String> {
    let name = option.name;
    match (option.value, value) {
        (None, None) => Ok(OsString::new()),
        (None, Some(_)) => Err(format!("{name} has no value")),
        (Some(_), Some(value)) => Ok(value),
        (Some(what), None) => {
            let value = rest.next().cloned();
            value.ok_or_else(|| format!("{name} is missing its value, {what}"))
        }
    }
}

fn enough(usage: &Usage, words: &[OsString]) -> Result<(), String> {
    let (most, least) = (usage.names.len(), usage.names.len() - usage.optional);
    if let Some(more) = words.get(most) {
        return Err(format!("{:?} is one word too many", more.to_string_lossy()));
    }
    if let Some((name, _)) = usage
        .names
        .iter()
        .zip(words)
        .find(|(_, word)| word.is_empty())
    {
        return Err(format!("{name} is empty"));
    }
    match usage.names.get(words.len()) {
        Some(missing) if words.len() < least => Err(format!("{missing} is missing")),
        _ => Ok(()),
    }
}

impl Args {
    /// The word at a place, as a path.
    pub fn path(&self, at: usize) -> &Path {
        Path::new(
            self.words
                .get(at)
                .map_or(OsStr::new(""), OsString::as_os_str),
        )
    }

    /// The word at a place, as text, if there is one.
    pub fn word(&self, at: usize) -> Option<String> {
        let word = self.words.get(at)?;
        Some(word.to_string_lossy().into_owned())
    }

    /// Whether an option is given.
    pub fn has(&self, name: &str) -> bool {
        self.options.contains_key(name)
    }

    /// The value of an option as text.
    pub fn value(&self, name: &str) -> Option<String> {
        let value = self.options.get(name)?;
        Some(value.to_string_lossy().into_owned())
    }

    /// The value of an option as a path.
    pub fn file(&self, name: &str) -> Option<&Path> {
        self.options.get(name).map(Path::new)
    }

    /// The word at a place, as the path of a file that is written.
    ///
    /// # Errors
    ///
    /// Where it is `-`, which is standard input.
    pub fn written(&self, at: usize) -> Result<&Path, String> {
        match self.path(at) {
            path if path == Path::new("-") => {
                Err("-: this is standard input, and a file that can be written is due".into())
            }
            path => Ok(path),
        }
    }

    /// The value of an option as a number, if it is given; such numbers would be right.
    ///
    /// # Errors
    ///
    /// Where it is no number, or too large.
    pub fn number<T: std::str::FromStr>(
        &self,
        name: &str,
        right: &str,
    ) -> Result<Option<T>, String> {
        let Some(value) = self.value(name) else {
            return Ok(None);
        };
        let whole = !value.is_empty() && value.bytes().all(|digit| digit.is_ascii_digit());
        match value.parse() {
            Ok(number) if whole => Ok(Some(number)),
            _ if whole => Err(format!("{name} {value}: it is too large; {right}")),
            _ => Err(format!("{name} {value}: a whole number is due; {right}")),
        }
    }

    /// The same, and it must be given.
    ///
    /// # Errors
    ///
    /// Where it is not.
    pub fn needed<T: std::str::FromStr>(&self, name: &str, right: &str) -> Result<T, String> {
        let missing = || format!("{name} is missing; {right}");
        self.number(name, right)?.ok_or_else(missing)
    }
}

/// The name that a word is most like, if it is like one.
pub fn nearest<'a>(word: &str, names: &[&'a str]) -> Option<&'a str> {
    let near = names.iter().map(|name| (distance(word, name), *name));
    let near = near.filter(|(distance, name)| *distance <= name.len() / 3);
    near.min_by_key(|(distance, _)| *distance)
        .map(|(_, name)| name)
}

/// How many letters are to be put in, taken out or changed to make one word the other.
fn distance(from: &str, to: &str) -> usize {
    let to: Vec<char> = to.chars().collect();
    let mut row: Vec<usize> = (0..=to.len()).collect();
    for (above, sign) in from.chars().enumerate() {
        let mut corner = row[0];
        row[0] = above + 1;
        for (at, other) in to.iter().enumerate() {
            let changed = corner + usize::from(sign != *other);
            corner = row[at + 1];
            row[at + 1] = changed.min(corner + 1).min(row[at] + 1);
        }
    }
    row[to.len()]
}

#[cfg(test)]
mod tests {
    use super::*;

    const USAGE: Usage = Usage {
        line: "FILE [LIST] [--card K] [--json]",
        names: &["FILE", "LIST"],
        optional: 1,
        options: &[
            Opt {
                name: "--card",
                value: Some("K"),
            },
            Opt {
                name: "--json",
                value: None,
            },
        ],
    };

    fn told(words: &str) -> String {
        let words: Vec<OsString> = words.split_whitespace().map(OsString::from).collect();
        match read(&USAGE, &words) {
            Ok(args) => format!("{:?} {:?}", args.words, args.options),
            Err(told) => told,
        }
    }

    #[test]
    fn words_and_options_are_read_in_any_order() {
        assert_eq!(
            told("a --card 3 b --json"),
            r#"["a", "b"] {"--card": "3", "--json": ""}"#
        );
        assert_eq!(told("--card=3 a"), r#"["a"] {"--card": "3"}"#);
        assert_eq!(told("-- --card"), r#"["--card"] {}"#);
        assert_eq!(told("-"), r#"["-"] {}"#);
    }

    #[test]
    fn what_is_wrong_is_told() {
        assert_eq!(told(""), "FILE is missing");
        assert_eq!(told("a b c"), "\"c\" is one word too many");
        assert_eq!(
            told("a --crad 3"),
            "there is no option --crad; did you mean --card?"
        );
        assert_eq!(
            told("a --x"),
            "there is no option --x; there is --card, --json"
        );
        assert_eq!(told("a --card"), "--card is missing its value, K");
        assert_eq!(told("a --json=1"), "--json has no value");
        assert_eq!(told("a --json --json"), "--json stands twice");
    }

    #[test]
    fn a_number_is_whole() {
        let words = ["a", "--card", "3x"].map(OsString::from);
        let args = read(&USAGE, &words).expect("good words");
        assert_eq!(
            args.number::<u16>("--card", "0 to 3"),
            Err("--card 3x: a whole number is due; 0 to 3".into())
        );
        assert_eq!(args.number::<u16>("--room", ""), Ok(None));
        assert_eq!(
            args.needed::<u16>("--room", "as in 64"),
            Err("--room is missing; as in 64".into())
        );
    }

    #[test]
    fn the_nearest_name_is_like_the_word() {
        assert_eq!(nearest("chek", &["check", "show"]), Some("check"));
        assert_eq!(nearest("xyz", &["check", "show"]), None);
    }
}
