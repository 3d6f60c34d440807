//! The text a desk shows, for anything that it holds.

use second::random::Random;
use second::{shown, Held, Language};

use crate::coverage::{Kind, Run};
use crate::proved;
use crate::run::{bytes, same, Compared};

/// Texts of desks near every edge, both languages, and a third that is none.
pub fn any(run: &mut Run, random: &mut Random) -> Compared<()> {
    for _ in 0..40 {
        let (first, second) = (random.index(6), random.index(6));
        let (original, translation) = (random.bytes(first), random.bytes(second));
        let any = random.number();
        let held = Held {
            original: &original,
            translation: &translation,
            original_length: near(random, first as u64),
            translation_length: near(random, second as u64),
            edition: random.pick(&[0, 1, 2, 65_534, 65_535, any as u16]),
            translated_from: random.pick(&[0, 1, 2, 65_534, 65_535, any as u16]),
        };
        for language in [Language::Original, Language::Translation(0)] {
            both(run, &held, language)?;
        }
        let other = random.between(2, 255) as u8;
        if proved::shown(&held, other) != (1, 0) {
            return Err(format!("language {other} is not refused: {held:?}"));
        }
        run.case();
        run.seen(Kind::ThirdLanguage);
    }
    Ok(())
}

/// A length at, around or far from the buffer's size.
fn near(random: &mut Random, size: u64) -> u64 {
    let any = random.number();
    random.pick(&[
        0,
        size,
        size,
        size,
        size.saturating_sub(1),
        size + 1,
        any,
        u64::MAX,
    ])
}

fn both(run: &mut Run, held: &Held, language: Language) -> Compared<()> {
    let input = || {
        bytes("original", held.original)
            + &bytes("translation", held.translation)
            + &format!("  {held:?} {language:?}\n")
    };
    let (number, text) = shown(held, language);
    let proved = proved::shown(held, proved::asked(language));
    same("shown", proved, (number, text.len() as u64), input)?;
    let buffer = match language {
        Language::Original => held.original,
        Language::Translation(_) => held.translation,
    };
    same("shown text", &buffer[..proved.1 as usize], text, input)?;
    run.number(number);
    let kind = match (number, language) {
        (0, Language::Original) => 0,
        (0, Language::Translation(_)) => 1,
        (6, _) => 2,
        _ => 3,
    };
    run.seen_at(Kind::Desks, kind);
    Ok(())
}
