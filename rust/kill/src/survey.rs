//! What is looked at right behind each kill: the image and every log, as they stand in their files, and what a recovery
//! of each log makes of them that nobody holds. That is made on copies: the desks find their files as they were.

use compare::proved;
use lupaniele::files::{read_bytes, FileError, LogFile};
use lupaniele::{Version, LARGEST_IMAGE};
use second::log::Record;
use second::{read_back, recovery, Format, Language, Layout};

use crate::desk::recover_copies;
use crate::judge::something_due;
use crate::tally::{Counted, Tally};
use crate::town::{Town, LOG};

/// Looks at everything.
pub fn survey(town: &Town, tally: &mut Tally) -> Result<(), String> {
    sound_image(town)?;
    for desk in 1..=town.desks {
        let path = town.log(desk);
        if !path.exists() {
            continue;
        }
        match LogFile::open(&path) {
            Ok(file) => {
                let log = file.log().bytes().to_vec();
                tally.add(Counted::Due, u64::from(something_due(&log)));
                if town.version == Version::One {
                    tally.count(Counted::Surveyed);
                    recovers(town, desk, log)?;
                }
            }
            Err(FileError::InUse) => {
                tally.count(Counted::Logs);
                let log = read_bytes(&path, LOG).map_err(|why| why.to_string())?;
                if second::check(&log) != 0 {
                    return Err(format!("11.8: the log of desk {desk} is good"));
                }
            }
            Err(why) => return Err(format!("the log of desk {desk}: {why}")),
        }
    }
    Ok(())
}

fn sound_image(town: &Town) -> Result<Vec<u8>, String> {
    let image = read_bytes(town.image(), LARGEST_IMAGE).map_err(|why| why.to_string())?;
    let format = town.format();
    match format.is_sound(&image) && proved::sound(format, &image) {
        true => Ok(image),
        false => Err("2.6: the image is sound".to_string()),
    }
}

/// Both texts of each card.
type Texts = Vec<[Vec<u8>; 2]>;

fn texts(layout: Layout, image: &[u8]) -> Texts {
    let languages = [Language::Original, Language::Translation(0)];
    let cards = (0..layout.cards() as u16).map(|card| {
        languages.map(|language| {
            let text = layout.text(image, card, language);
            text.unwrap_or_default().to_vec()
        })
    });
    cards.collect()
}

/// The texts that a recovery has to leave: on each card that bears the desk's mark what is due is written (rule 16.11).
fn due_texts(layout: Layout, image: &[u8], desk: u16, log: &[u8]) -> Texts {
    let mut texts = texts(layout, image);
    let records = read_back(log).map(|read| read.records).unwrap_or_default();
    for logged in &records {
        let Record::Update { card, side, text } = logged.record else {
            continue;
        };
        let entry = layout.entry(image, card);
        let bears = entry.is_some_and(|entry| entry.mark.desk == desk);
        if bears && recovery::is_due(&records, logged) {
            texts[usize::from(card)][usize::from(side) - 1] = text.to_vec();
        }
    }
    texts
}

/// While this process has the log, nobody acts for the desk, and its cards stay as they are.
fn recovers(town: &Town, desk: u16, log: Vec<u8>) -> Result<(), String> {
    let image = sound_image(town)?;
    let layout = Layout::of_sound(Format::V1, &image).ok_or("2.6: the image is sound")?;
    let due = due_texts(layout, &image, desk, &log);
    let (log, image) = recover_copies(desk, log, image)?;
    let marked = (0..layout.cards() as u16).any(|card| {
        let entry = layout.entry(&image, card);
        entry.is_some_and(|entry| entry.mark.desk == desk)
    });
    let rule = match (texts(layout, &image) == due, marked, something_due(&log)) {
        (true, false, false) => return Ok(()),
        (false, ..) => "16.13: recovery leaves the texts of committed transactions",
        _ => "16.28: after a recovery nothing is due, and no card bears the desk's mark",
    };
    Err(format!("{rule}, of desk {desk}"))
}
