//! Whole lists of commands from a fresh image: compared command by command,
//! and held to the sentences of demand 3.

use second::generate;
use second::random::Random;
use second::short::fresh_of;
use second::Mode;

use crate::answers::{answer, reply_near};
use crate::coverage::{Kind, Run};
use crate::demand3::{self, Event};
use crate::images;
use crate::pairs;
use crate::run::{bytes, Compared};
use crate::sessions::{self, Desks};

/// Who sends the list.
#[derive(Clone, Copy, PartialEq, Eq)]
enum Sender {
    /// Desks that propose pairs as the papers have it.
    Strict,
    /// Desks that now and then do not.
    Loose,
    /// Anyone: commands of any sort.
    Anyone,
    /// Desks whose clocks jump: each stamp is at most a little past the limit
    /// above what the card keeps.
    Jumping,
}

/// A list of each sender from a fresh image of a random shape.
pub fn any(run: &mut Run, random: &mut Random) -> Compared<()> {
    let format = run.format;
    let senders = [
        Sender::Strict,
        Sender::Loose,
        Sender::Anyone,
        Sender::Jumping,
    ];
    for (at, sender) in senders.into_iter().enumerate() {
        let large = random.one_in(20);
        let (cards, room) = match large {
            true => random.pick(&generate::large(format)),
            false => random.pick(&[(1, 16), (1, 16), (2, 16), (2, 32), (3, 48)]),
        };
        let mut image = vec![0xee; fresh_of(format, cards, room).len()];
        images::make(run, &mut image, cards, room)?;
        let mut desks = Desks::new(format, sender == Sender::Strict);
        let mut events = Vec::new();
        for _ in 0..random.between(10, 70) {
            let command = match sender {
                Sender::Anyone => generate::command(format, random, &image),
                Sender::Jumping => sessions::jumping(format, random, &image),
                _ => desks.command(random, &image),
            };
            let lent = reply_near(format, random, &image, &command);
            let mut reply = lent.clone();
            let told = answer(run, &mut image, &command, &mut reply)?;
            events.push(Event::new(format, &command, lent, told, &reply));
            run.seen(Kind::Listed);
            if let (0, Some(mode)) = (told.number, pairs::opening(format, &command)) {
                run.seen_at(Kind::ListedOpenings, usize::from(mode == Mode::Exclusive));
            }
        }
        sentences(run, cards as u16, &events)?;
        run.seen_at(Kind::Lists, at);
        if large {
            run.seen_at(Kind::LargeLists, 0);
        }
    }
    Ok(())
}

/// Evaluates demand 3 on a list from a fresh image of so many cards.
pub fn sentences(run: &mut Run, cards: u16, events: &[Event]) -> Compared<()> {
    demand3::holds(cards, events, run).map_err(|sentence| {
        let list = events
            .iter()
            .map(|event| bytes("command", &event.command) + &bytes("reply lent", &event.lent));
        format!("demand 3: {sentence}\n{}", list.collect::<String>())
    })
}
