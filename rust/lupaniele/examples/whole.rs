//! One day of a card: an image is made, both languages are written, late and outdated things are refused and say why in
//! words, two desks queue up, the power fails in the middle of an append, recovery brings the texts back, two texts are
//! compared, and the store gets four languages.

use std::error::Error;

use lupaniele::desk::{Desk, Failed};
use lupaniele::{
    Command, DeskId, Disagreement, Image, Known, Language, Log, Mode, Number, Pair, Queue, Record,
    Side, Step, Text, Unit, Version, agree,
};

type Done = Result<(), Box<dyn Error>>;

/// The card and the one that has longer words.
const DROP: u16 = 0;
const NOTES: u16 = 1;

fn main() -> Done {
    let mut store = Image::make(Version::One, 2, 512)?;
    let (mut english, mut norwegian) = (
        Desk::start(DeskId::new(1, 0)),
        Desk::start(DeskId::new(2, 0)),
    );
    both_languages(&mut store, &mut english, &mut norwegian)?;
    late(&mut store, &mut english)?;
    outdated(&mut store, &mut english, &mut norwegian)?;
    queue()?;
    power_cut(&mut store)?;
    compared(&store)?;
    four_languages(&store)
}

/// A card's text: words and the temperature to drop at.
fn card(words: &str, tenths: u16, unit: Unit) -> Result<Vec<u8>, Box<dyn Error>> {
    let drop = Text::new([Step::words(words), Step::drop(tenths, unit)]);
    let text = Text::new([Step::words("Santos, dark"), Step::Section(drop)]);
    Ok(text.to_bytes()?)
}

/// What a number means, which rule says so, and what to do now.
fn told(what: &str, number: Number) {
    println!(
        "{what}: {number} (rule {}). {} {}",
        number.rule(),
        number.meaning(),
        number.advice()
    );
}

fn both_languages(store: &mut Image, english: &mut Desk, norwegian: &mut Desk) -> Done {
    let original = english.write_original(store, DROP, &card("Drop at", 2050, Unit::Celsius)?)?;
    norwegian.write_translation(
        store,
        &original,
        Language::First,
        &card("Tøm ved", 4010, Unit::Fahrenheit)?,
    )?;
    let notes = "Let the drum cool before the next charge. ".repeat(10);
    let original = english.write_original(store, NOTES, notes.as_bytes())?;
    println!(
        "written: card {DROP} in both languages, {} bytes on card {NOTES}",
        original.text().len()
    );
    Ok(())
}

/// A command that was sent before others were accepted, and comes after them.
fn late(store: &mut Image, english: &mut Desk) -> Done {
    let pair = Known::nothing(DeskId::new(3, 0)).propose(Mode::Exclusive)?;
    let late = Command::write_original(DROP, b"last season's figure").exclusive(pair);
    let answer = store.answer(&late, &mut [])?;
    told("a late write", answer.number);
    let stands = Text::read(english.read_original(store, DROP)?.text())?;
    print!("still there:\n{stands}");
    Ok(())
}

/// A translation whose original has changed since.
fn outdated(store: &mut Image, english: &mut Desk, norwegian: &mut Desk) -> Done {
    english.write_original(store, DROP, &card("Drop at", 2060, Unit::Celsius)?)?;
    match norwegian.read_translation(store, DROP, Language::First) {
        Err(Failed::Refused(refusal)) => {
            println!("the translation is not shown: {refusal}");
            told("in words", refusal.number());
        }
        other => println!("{other:?}"),
    }
    Ok(())
}

/// Two desks stand in a queue; one of them asks for more.
fn queue() -> Done {
    let mut queues = [Queue::new(4)?];
    let (mut first, mut second) = (
        Desk::start(DeskId::new(1, 0)),
        Desk::start(DeskId::new(2, 0)),
    );
    let answer = first.ask(&mut queues[..], DROP, Mode::Shared)?;
    println!(
        "desk 1 asks shared: {}, holds: {}",
        answer.number, answer.holds
    );
    let answer = second.ask(&mut queues[..], DROP, Mode::Shared)?;
    println!(
        "desk 2 asks shared: {}, holds: {}",
        answer.number, answer.holds
    );
    let answer = first.ask(&mut queues[..], DROP, Mode::Exclusive)?;
    println!(
        "desk 1 upgrades: {}, holds: {}",
        answer.number, answer.holds
    );
    let answer = second.leave(&mut queues[..], DROP)?;
    println!("desk 2 leaves: {}", answer.number);
    let front = queues[0].standing().next();
    println!(
        "in front: {:?}",
        front.map(|(mode, pair)| (mode, pair.x.desk_id()))
    );
    Ok(())
}

/// A desk logs a change of both languages; the power fails while it appends its next record; started again, it
/// recovers.
fn power_cut(store: &mut Image) -> Done {
    let mut log = Log::empty(8_192)?;
    let (original, translation) = (
        card("Drop at", 2050, Unit::Celsius)?,
        card("Tøm ved", 4020, Unit::Fahrenheit)?,
    );
    log.append(&Record::Begin(1))?;
    for (side, text) in [
        (Side::Original, &original),
        (Side::Translation, &translation),
    ] {
        log.append(&Record::Update {
            card: DROP,
            side,
            text,
        })?;
    }
    log.append(&Record::Commit(1))?;
    let synced = Record::Synced {
        card: DROP,
        transaction: 1,
    };
    println!("the next append: {}", log.append_cut(&synced, 7));

    let mut log = Log::check(log.into_bytes())?;
    println!("read back: {} records", log.count());
    // It knows nothing after its start: it learns what stands on the cards, and proposes a pair for each.
    let pairs = store.cards().map(|card| {
        let mut known = Known::nothing(DeskId::new(1, 1));
        known.learn(card.pair());
        known.propose(Mode::Exclusive)
    });
    let pairs: Vec<Pair> = pairs.collect::<Result<_, Number>>()?;
    log.recover(store, &pairs)?;
    log.append(&synced)?;
    println!("recovered, and noted as synced");
    Ok(())
}

/// Do both languages say the same drop?
fn compared(store: &Image) -> Done {
    let card = store.card(DROP).ok_or("no such card")?;
    let translation = card.shown(Language::First)?;
    match agree(card.original(), translation) {
        Err(parted @ Disagreement::Parted { place }) => {
            println!("{parted}");
            if let Some((path, step)) = Text::read(card.original())?.step_at(place) {
                println!("step {path:?} of the original: {step}");
            }
            print!("the translation:\n{}", Text::read(translation)?);
        }
        other => println!("{other:?}"),
    }
    Ok(())
}

/// The store with four languages, and a second translation.
fn four_languages(store: &Image) -> Done {
    let mut store = store.convert()?;
    let mut desk = Desk::start(DeskId::new(4, 0));
    let original = desk.read_original(&mut store, DROP)?;
    desk.write_translation(
        &mut store,
        &original,
        Language::Second,
        &card("Töm vid", 2050, Unit::Celsius)?,
    )?;
    let text = desk.read_translation(&mut store, DROP, Language::Second)?;
    match agree(original.text(), &text) {
        Ok(()) => println!("{}: {} says the same", store.version(), Language::Second),
        Err(parted) => println!("{parted}"),
    }
    Ok(())
}
