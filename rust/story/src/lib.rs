//! Stories: what desks do with a card store, line by line as text. A story is run on the proved library, told step by
//! step with the answers in words, or drawn. Queues, logs and the image are those of the crate `lupaniele`, texts and
//! commands are read and written by `forms`; no rule is decided here.
//!
//! ```
//! let story = story::Story::read(
//!     "# The behind Norwegian card\n\
//!      cards 1 room 16\n\
//!      exclusive write original of card 0 by (1.1.0, 1.1.0) text \"205\"\n\
//!      shared read translation of card 0 by (2.2.0, 1.1.0)\n",
//! )?;
//! assert!(story.told().contains("translation behind"));
//! assert!(story.drawn().starts_with("<svg"));
//! # Ok::<(), forms::Wrong>(())
//! ```
//!
//! | line | what it says |
//! |---|---|
//! | `# words` | the story's title on its first line; words for the reader elsewhere |
//! | `cards 1 room 32`, and the cards that are not fresh | the image at the beginning, as `forms` has it |
//! | `name desk 1 "English"` | a desk's name |
//! | `exclusive write original of card 0 by (1.1.0, 1.1.0) text "205"` | a command, as `forms` has it |
//! | `desk 1.0 asks shared for card 0 by (1.1.0, none)` | a desk asks in a queue; so `upgrades for card 0 by ..`, `leaves card 0` |
//! | `desk 1.0 lapses for card 0 period 30 drift 0.5 begin 100 now 145` | its lease is looked at |
//! | `queue for card 0 begins with 4 places` | an empty queue; each has 32 places at first |
//! | `desk 1.0 logs begin 1`, and perhaps `cut after 9` | a record, as `forms` has it; the power fails after so many stores |
//! | `desk 1.0 goes down`, `falls silent`; `desk 1.1 starts` | what befalls a desk |
//! | `desk 1.1 recovers card 0 by (2.2.0, 1.1.1)` | recovery, with a pair for each card |
//! | `store converts to version 2` | four languages from here on |

#![deny(missing_docs)]
#![forbid(unsafe_code)]

mod event;
pub mod picture;
mod scene;
mod stage;
mod tell;

use std::fmt::Write;

use forms::{Got, Wrong};
use lupaniele::{Broken, Image, Number, Stream, Version};

pub use event::Event;
pub use scene::{
    changes, standings, Change, Judged, Scene, Session, Standing, Translated, Waiting,
};
pub use stage::Played;

/// A story: an image, and what follows on it.
#[derive(Clone, Debug, PartialEq)]
pub struct Story {
    /// Its title.
    pub title: Option<String>,
    /// The image at its beginning.
    pub image: Image,
    /// What follows, each with the number of its line, from 1.
    pub events: Vec<(usize, Event)>,
}

impl Story {
    /// The story that a text tells.
    ///
    /// # Errors
    ///
    /// The first line that cannot be read, the column, and what would be right there.
    pub fn read(text: &str) -> Got<Story> {
        let mut lines = forms::lines(text)?.into_iter().peekable();
        let image = forms::take_image(&mut lines)?;
        let (title, mut events) = notes(text);
        let mut version = image.version();
        for mut line in lines {
            let event = Event::read(&mut line, version)?;
            line.done()?;
            if event == Event::Convert {
                version = Version::Two;
            }
            events.push((line.number(), event));
        }
        events.sort_by_key(|(line, _)| *line);
        Ok(Story {
            title,
            image,
            events,
        })
    }

    /// Its text, from which it can be read again.
    pub fn write(&self) -> String {
        let mut text = String::new();
        if let Some(title) = &self.title {
            let _ = writeln!(text, "# {title}");
        }
        text.push_str(&forms::image(&self.image));
        let mut before: Option<&Event> = None;
        for (_, event) in &self.events {
            let is_note = |event: &Event| matches!(event, Event::Note(_));
            if is_note(event) && !before.is_some_and(is_note) {
                text.push('\n');
            }
            let _ = writeln!(text, "{event}");
            before = Some(event);
        }
        text
    }

    /// The story in an input of the program: an image and a stream (rules 8.1 to 8.3). What is left of the stream is
    /// sent as it is.
    ///
    /// # Errors
    ///
    /// Why there is no sound image in front.
    pub fn from_input(input: &[u8]) -> Result<Story, Broken> {
        let front = match Image::check(input) {
            Ok(_) => input.len(),
            Err(Broken::Length { length, needed }) if needed < length => needed,
            Err(broken) => return Err(broken),
        };
        let (image, rest) = input.split_at(front);
        let image = Image::check(image.to_vec())?;
        let version = image.version();
        let stream = Stream::new(version, rest);
        let left = &rest[stream.end().min(rest.len())..];
        let whole = stream.chain((!left.is_empty()).then_some(left));
        let commands = whole.map(|bytes| Event::Command {
            version,
            bytes: bytes.to_vec(),
        });
        Ok(Story {
            title: None,
            image,
            events: (1..).zip(commands).collect(),
        })
    }

    /// The program's input of this story.
    ///
    /// # Errors
    ///
    /// The program takes an image and commands: any other line is wrong here.
    pub fn to_input(&self) -> Got<Vec<u8>> {
        let mut input = self.image.bytes().to_vec();
        for (line, event) in &self.events {
            match event {
                Event::Command { bytes, .. } => input.extend_from_slice(bytes),
                Event::Note(_) | Event::Name { .. } => {}
                other => {
                    let told = format!("the program's input has commands alone, not `{other}`");
                    return Err(Wrong::new(*line, 1, told));
                }
            }
        }
        Ok(input)
    }

    /// How many steps were refused.
    pub fn refused(&self) -> usize {
        let numbers = self
            .play()
            .scenes
            .into_iter()
            .filter_map(|scene| scene.number());
        numbers.filter(|number| *number != Number::Accepted).count()
    }

    /// What happens, step by step, with the answers in words.
    pub fn told(&self) -> String {
        tell::told(self, &self.play())
    }

    /// A picture of what happens, as SVG.
    pub fn drawn(&self) -> String {
        let played = self.play();
        picture::draw(&picture::Picture {
            title: self.title.as_deref().unwrap_or("A story"),
            names: &played.names,
            opening: &standings(&self.image),
            scenes: &played.scenes,
        })
    }
}

/// The title, and the other comments that have a line of their own.
fn notes(text: &str) -> (Option<String>, Vec<(usize, Event)>) {
    let comment = |line: &str| line.strip_prefix('#').map(|words| words.trim().to_string());
    let mut lines = (1..).zip(text.lines()).peekable();
    let title = lines.next_if(|(_, line)| line.starts_with('#'));
    let title = title.and_then(|(_, line)| comment(line));
    let notes = lines.filter_map(|(at, line)| Some((at, Event::Note(comment(line)?))));
    (
        title.filter(|title| !title.is_empty()),
        notes
            .filter(|(_, note)| *note != Event::Note(String::new()))
            .collect(),
    )
}
