//! Commands of version 2: at which edges of their own rules they stand, and the
//! other version's images and commands.

use second::random::Random;
use second::{generate, Act, Command, CommandFields, Format, Language};

use crate::answers::{answer, reply_near};
use crate::coverage::{Kind, Run};
use crate::images::soundness;
use crate::run::{bytes, same, Compared};

/// Counts what a command has to do with languages, and with the other version.
pub fn note(run: &mut Run, bytes: &[u8], number: u8) {
    let format = run.format;
    if Command::parse(format.other(), bytes).is_some() && number == 1 {
        run.seen(Kind::OtherCommands);
    }
    if format == Format::V1 {
        return;
    }
    match Command::parse(format, bytes).map(|command| command.act) {
        Some(Act::Read(Language::Translation(into))) if number == 0 || number == 6 => {
            let at = usize::from(into);
            run.seen_at(Kind::LanguagesRead, 2 * at + usize::from(number == 6));
        }
        Some(Act::Write(Language::Translation(into))) if number == 0 => {
            run.seen_at(Kind::LanguagesWritten, into.into());
        }
        Some(_) => {}
        None if number == 1 => malformed(run, bytes),
        None => {}
    }
}

/// A malformed command: whether its language alone is at fault, or one of the
/// bytes behind it.
fn malformed(run: &mut Run, bytes: &[u8]) {
    let Some(fields) = CommandFields::from_bytes(Format::V2, bytes) else {
        return;
    };
    let payload = bytes.get(Format::V2.command_bytes()..).unwrap_or_default();
    let formed =
        |fields: CommandFields| Command::parse(Format::V2, &fields.followed_by(payload)).is_some();
    let language = 0;
    if formed(CommandFields { language, ..fields }) {
        run.seen_at(Kind::NoLanguages, usize::from(fields.act) - 1);
    }
    for at in (0..15).filter(|at| fields.reserved[*at] != 0) {
        let mut fields = fields;
        fields.reserved[at] = 0;
        if formed(fields) {
            run.seen_at(Kind::Reserved, at);
        }
    }
}

/// An image of the other version, which is not sound, and commands of either
/// version on it, which get 9.
pub fn other_version(run: &mut Run, random: &mut Random) -> Compared<()> {
    let format = run.format;
    let mut image = generate::sound_image(format.other(), random);
    // Now and then with this version's number in its header.
    let numbered = random.one_in(4);
    if numbered {
        image[4] = format.version() as u8;
    }
    let input = || bytes("image", &image);
    same(
        "other version: sound",
        soundness(run, &image)?,
        false,
        input,
    )?;
    for of in Format::BOTH {
        let command = generate::fitting_command(of, random, &image);
        let mut reply = reply_near(of, random, &image, &command);
        let mut lent = image.clone();
        let told = answer(run, &mut lent, &command, &mut reply)?;
        same("other version: number", told.number, 9, input)?;
        run.seen_at(Kind::OtherImages, usize::from(numbered));
    }
    Ok(())
}
