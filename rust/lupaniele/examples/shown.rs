//! Shows a desk's text in the language asked for, or nothing (rules 6.1 to 6.3).

use lupaniele::{Held, Number};

fn told(what: &str, shown: Result<&[u8], Number>) {
    match shown {
        Ok(text) => println!("{what}: {:?}", String::from_utf8_lossy(text)),
        Err(number) => println!("{what}: {number}"),
    }
}

fn main() {
    let held = Held::new(b"205", b"401", 2, 1);
    told("the original", held.original());
    told(
        "the translation, made from edition 1 of 2",
        held.translation(),
    );
    let current = Held {
        translated_from: 2,
        ..held
    };
    told(
        "the translation, made from edition 2 of 2",
        current.translation(),
    );
    let too_long = Held {
        translation_length: 9,
        ..current
    };
    told(
        "the original, beside a translation of nine bytes in three",
        too_long.original(),
    );
}
