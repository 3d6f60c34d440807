//! Commands for different cards do not disturb each other: neighbours swapped,
//! and a whole list put in another order that keeps each card's own.

use second::generate;
use second::random::Random;
use second::{Command, Format};

use crate::answers::{answer, reply_near};
use crate::coverage::{Kind, Run};
use crate::proved::Answer;
use crate::run::{bytes, same, Compared};

/// A request, and what its sender sees of it.
type Request = (Vec<u8>, Vec<u8>);
type Seen = (Answer, Vec<u8>);

/// The card of a request, if it is well formed.
fn card(format: Format, request: &Request) -> Option<u16> {
    Command::parse(format, &request.0).map(|command| command.card)
}

/// Sends requests in turn: the image that they leave, and what each one saw.
fn sent(run: &mut Run, image: &[u8], requests: &[&Request]) -> Compared<(Vec<u8>, Vec<Seen>)> {
    let mut image = image.to_vec();
    let mut seen = Vec::new();
    for (command, lent) in requests {
        let mut reply = lent.clone();
        let told = answer(run, &mut image, command, &mut reply)?;
        seen.push((told, reply));
    }
    Ok((image, seen))
}

/// Two neighbours for different cards, in both orders, on an image of any sort.
fn neighbours(run: &mut Run, random: &mut Random) -> Compared<()> {
    let format = run.format;
    let image = match random.one_in(8) {
        true => generate::image(format, random),
        false => generate::sound_image_of(format, random, 3, 16),
    };
    let request = |random: &mut Random| {
        let command = match random.one_in(6) {
            true => generate::command(format, random, &image),
            false => generate::fitting_command(format, random, &image),
        };
        let lent = reply_near(format, random, &image, &command);
        (command, lent)
    };
    let (a, b) = (request(random), request(random));
    if card(format, &a).is_some() && card(format, &a) == card(format, &b) {
        return Ok(());
    }
    let (image_ab, ab) = sent(run, &image, &[&a, &b])?;
    let (image_ba, mut ba) = sent(run, &image, &[&b, &a])?;
    ba.reverse();
    let input = || bytes("image", &image) + &bytes("first", &a.0) + &bytes("second", &b.0);
    same("swapped: image", &image_ab, &image_ba, input)?;
    same("swapped: answers and replies", &ab, &ba, input)?;
    let numbers = ab.iter().map(|(told, _)| told.number);
    let at = match numbers.filter(|number| *number == 0).count() {
        _ if card(format, &a).is_none() || card(format, &b).is_none() => 2,
        2 => 0,
        _ => 1,
    };
    run.seen_at(Kind::Swapped, at);
    Ok(())
}

/// A list, and the same requests card after card with the malformed ones last.
fn regrouped(run: &mut Run, random: &mut Random) -> Compared<()> {
    let format = run.format;
    let image = generate::sound_image_of(format, random, 3, 16);
    let mut list: Vec<Request> = Vec::new();
    for _ in 0..random.between(5, 30) {
        let command = generate::command(format, random, &image);
        let lent = reply_near(format, random, &image, &command);
        list.push((command, lent));
    }
    let in_order: Vec<&Request> = list.iter().collect();
    let mut by_card = in_order.clone();
    by_card.sort_by_key(|request| card(format, request).map_or(u32::MAX, u32::from));
    let (left, seen) = sent(run, &image, &in_order)?;
    let (left_by_card, seen_by_card) = sent(run, &image, &by_card)?;
    let mut paired: Vec<(&&Request, &Seen)> = in_order.iter().zip(&seen).collect();
    paired.sort_by_key(|(request, _)| card(format, request).map_or(u32::MAX, u32::from));
    let told: Vec<&Seen> = paired.into_iter().map(|(_, seen)| seen).collect();
    let told_by_card: Vec<&Seen> = seen_by_card.iter().collect();
    let input = || {
        let list = in_order.iter().map(|request| bytes("command", &request.0));
        bytes("image", &image) + &list.collect::<String>()
    };
    same("card after card: image", &left, &left_by_card, input)?;
    same("card after card: answers", told, told_by_card, input)?;
    run.seen(Kind::Regrouped);
    Ok(())
}

/// Some of each.
pub fn any(run: &mut Run, random: &mut Random) -> Compared<()> {
    for _ in 0..10 {
        neighbours(run, random)?;
    }
    regrouped(run, random)
}
