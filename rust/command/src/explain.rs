//! `lupaniele explain`.

use forms::folded;
use lupaniele::Number;

use crate::args::{Args, nearest};
use crate::outcome::{Done, Failed, Outcome};

pub fn run(args: &Args) -> Outcome {
    let Some(word) = args.word(0) else {
        let rows = Number::ALL.map(|number| {
            let (at, name, rule) = (u8::from(number), number.name(), number.rule());
            format!("{at:2}  {name:26}  rule {rule}\n")
        });
        return Done::well(rows.concat());
    };
    let number = found(&word);
    let Some(number) = number else {
        let last = Number::ALL.len() - 1;
        let names = Number::ALL.map(Number::name);
        let near = match nearest(&word.to_lowercase(), &names) {
            Some(near) => format!("did you mean `{near}`?"),
            None => format!("they are 0 to {last}, and `lupaniele explain` lists them"),
        };
        let told = format!("`{word}` is no number of an answer, nor the name of one; {near}");
        return Err(Failed::unusable(told));
    };
    let out = format!(
        "{} {number} (rule {}; {} in programs)\n{}\n{}\n",
        u8::from(number),
        number.rule(),
        number.constant(),
        folded(&format!("It means: {}", number.meaning()), 0),
        folded(&format!("What to do: {}", number.advice()), 0),
    );
    Done::well(out)
}

/// The number that a word names: in digits, by its name or its constant, or by a part of one name alone.
fn found(word: &str) -> Option<Number> {
    let number: Option<u8> = word.parse().ok();
    if let Some(number) = number {
        return Number::try_from(number).ok();
    }
    let word = word.to_lowercase();
    let named = |number: &Number| number.name() == word || number.constant().to_lowercase() == word;
    let part = |number: &Number| number.name().split(' ').any(|part| part == word);
    let parts: Vec<Number> = Number::ALL.into_iter().filter(part).collect();
    let whole = Number::ALL.into_iter().find(named);
    whole.or(match parts[..] {
        [only] => Some(only),
        _ => None,
    })
}
