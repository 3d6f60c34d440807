//! Commands with a verifier and an update pair: at which edges of their rules
//! they stand.

use second::stamp::is_valid;
use second::{Command, CommandFields, Entry, Format, Mode, Pair};

use crate::coverage::{Kind, Run};

/// Counts what the two pairs of a command are, for the entry of its card if it
/// has one and the number that it got.
pub fn note(run: &mut Run, bytes: &[u8], stored: Option<Entry>, number: u8) {
    let format = run.format;
    let Some(fields) = CommandFields::from_bytes(format, bytes) else {
        return;
    };
    match (Command::parse(format, bytes), stored) {
        (Some(_), Some(_)) if fields.update == Pair::default() => {}
        (Some(command), Some(stored)) => judged(run, &command, stored, number),
        (None, _) if number == 1 => refused(run, &fields, bytes),
        _ => {}
    }
}

/// A well-formed command with two pairs.
fn judged(run: &mut Run, command: &Command, stored: Entry, number: u8) {
    let (verifier, update) = (command.verifier, command.update);
    let above = [(update.s, verifier.s), (update.x, verifier.x)];
    let count = above.iter().filter(|(new, old)| new > old).count();
    run.seen_at(Kind::Updates, count);
    for (at, _) in (0..).zip(above).filter(|(_, (new, old))| new - old == 1) {
        run.seen_at(Kind::UpdateSteps, at);
    }
    let opened = match (command.mode, verifier.s, verifier.x) {
        (_, 0, 0) => Some(0),
        (Mode::Shared, 0, _) => Some(1),
        (Mode::Exclusive, _, 0) => Some(2),
        (_, 0, _) | (_, _, 0) => None,
        _ => (count == 2).then_some(3),
    };
    if let (0, Some(at)) = (number, opened) {
        run.seen_at(Kind::Openings, at);
    }
    if number == 3 && !command.mode.is_below(update, stored.pair) {
        let by_s = verifier.x >= stored.pair.x;
        run.seen_at(Kind::LateVerifiers, usize::from(by_s));
    }
}

/// The command is well formed, and its update pair is above its verifier: it
/// opens a session.
pub fn opening(format: Format, bytes: &[u8]) -> Option<Mode> {
    let command = Command::parse(format, bytes)?;
    (command.update != command.verifier).then_some(command.mode)
}

/// A malformed command: whether one stamp alone is at fault, and how.
fn refused(run: &mut Run, fields: &CommandFields, bytes: &[u8]) {
    let (verifier, update) = (fields.pair, fields.update);
    let formed = |fields: CommandFields| {
        let payload = bytes
            .get(fields.format.command_bytes()..)
            .unwrap_or_default();
        Command::parse(fields.format, &fields.followed_by(payload)).is_some()
    };
    let with = |update| formed(CommandFields { update, ..*fields });
    // The largest stamp is valid, and at least every verifier's.
    let at_fault = [
        (with(Pair::new(u64::MAX, update.x)), update.s, verifier.s),
        (with(Pair::new(update.s, u64::MAX)), update.x, verifier.x),
    ];
    let sent = update != Pair::default();
    for (side, (_, new, old)) in (0..).zip(at_fault).filter(|(_, at)| at.0 && sent) {
        let at = match (new, old) {
            (0, 0) => 6,
            (0, _) => 2 + side,
            _ if !is_valid(new) => 4 + side,
            _ if new.checked_add(1) == Some(old) => side,
            _ => continue,
        };
        run.seen_at(Kind::NoUpdates, at);
    }
    let pair = Pair::default();
    if sent && formed(CommandFields { pair, ..*fields }) && verifier.larger(update) == update {
        run.seen_at(Kind::NoVerifiers, usize::from(is_valid(verifier.s)));
    }
}
