//! Runs over streams: commands that are on their way arrive end to end, and are
//! run in pieces, cut at any byte, with any room for lines.

use second::Format;
use story::Scene;

use super::post::{act_in, Body, Message};
use super::Town;
use crate::checks::formed::formed_as;
use crate::checks::runs::{answer_in, checked, end, whole, Run, LINE};
use crate::checks::{Check, Checked};
use crate::library::{Answer, Library};
use crate::tally::{Fault, Operation, Step};

/// What the numbers lent for lines hold at first.
const UNTOUCHED: u64 = 0x1111_2222_3333_4444;

/// After so many pieces the rest of a stream is run at once.
const PIECES: usize = 12;

/// Runs of one stream so far.
struct Running {
    format: Format,
    stream: Vec<u8>,
    at: usize,
    reply: Vec<u8>,
    answers: Vec<Answer>,
}

impl<L: Library> Town<'_, L> {
    /// Some of the commands on their way arrive as one stream, mostly of the
    /// store's version; where there are none, a message arrives.
    pub(super) fn stream(&mut self) -> Checked {
        let format = match self.one_in(12) {
            true => self.store.format.other(),
            false => self.store.format,
        };
        let taken = self.gather(format);
        let Some(first) = taken.first().and_then(|first| first.body.as_command()) else {
            return self.deliver();
        };
        self.tally.step(Step::Run);
        let tail = first.1[..self.random.index(first.1.len())].to_vec();
        let mut stream: Vec<u8> = commands(&taken).concat();
        if self.one_in(2) {
            stream.extend(tail);
        }
        let other = format != self.store.format;
        self.tally.fault_if(other, Fault::OtherRun);
        let (commands, bytes) = (taken.len(), stream.len());
        self.tell(|| {
            let words = format!("{commands} commands arrive as one stream, {bytes} bytes");
            Scene::Said(words)
        });
        let running = self.run_all(format, stream, commands)?;
        let last = last_shown(&taken, &running);
        self.beside_run(&taken, &running, last)?;
        self.answer_run(&taken, &running, last);
        self.hear()
    }

    /// Runs a stream, piece by piece, with one reply buffer of any length.
    fn run_all(&mut self, format: Format, stream: Vec<u8>, commands: usize) -> Checked<Running> {
        let any = self.random.index(self.lent.len() + 1);
        let lent = self.random.pick(&[0, 2, self.shape.room, any]);
        let mut running = Running {
            format,
            stream,
            at: 0,
            reply: self.lent[..lent].to_vec(),
            answers: Vec::new(),
        };
        let mut pieces = 0;
        while !self.piece(&mut running, pieces, commands)? {
            pieces += 1;
            self.tally.fault(Fault::RunOn);
        }
        Ok(running)
    }

    /// A run on a damaged image: each command gets 9, and nothing changes.
    pub(super) fn damaged_run(&mut self, format: Format, command: &[u8], image: &[u8]) -> Checked {
        let (stream, mut after) = ([command; 3].concat(), image.to_vec());
        let room = self.random.index(4 * LINE);
        let (mut lines, mut reply) = (vec![UNTOUCHED; room], [0xa5; 16]);
        let told = self
            .library
            .run(format, &mut after, &stream, &mut reply, &mut lines);
        let count = (room / LINE).min(3);
        let made = &mut self.tally.made;
        let stopped = (count * command.len()) as u64;
        made.same(Check::RunEnd, told, (count as u64, stopped))?;
        let mut rules = vec![UNTOUCHED; room];
        for line in rules.chunks_exact_mut(LINE).take(count) {
            line.copy_from_slice(&[9, 0, 0, 0, 0, 0, 0, 0]);
        }
        made.same(Check::RunLines, lines, rules)?;
        let same = after == image && reply == [0xa5; 16];
        made.hold(Check::RunBuffers, same, || {
            "9, and bytes are changed".into()
        })
    }

    /// Whole commands of a version that are on their way, some of the oldest.
    fn gather(&mut self, format: Format) -> Vec<Message> {
        let most = self.random.between(1, 6) as usize;
        let (mut taken, mut at) = (Vec::new(), 0);
        while at < self.post.len() && taken.len() < most {
            let command = self.post[at].body.as_command();
            let fits = command.is_some_and(|(own, bytes, _)| {
                own == format && whole(format, bytes, 0) == Some(bytes.len())
            });
            match fits {
                true => taken.push(self.post.remove(at)),
                false => at += 1,
            }
        }
        taken
    }

    /// Runs a piece of what is left, up to some byte and with some room for
    /// lines. Whether the whole stream is run.
    fn piece(&mut self, running: &mut Running, pieces: usize, commands: usize) -> Checked<bool> {
        let Running { format, at, .. } = *running;
        let (last, left) = (pieces == PIECES, running.stream.len() - at);
        let bytes = match last || self.one_in(3) {
            true => left,
            false => self.random.index(left + 1),
        };
        let room = match last || self.one_in(3) {
            true => LINE * commands,
            false => self.random.index(LINE * (commands + 1)),
        };
        let stream = &running.stream[at..at + bytes];
        let walked = self.library.end(format, stream);
        let made = &mut self.tally.made;
        made.same(Check::Walk, walked, end(format, stream))?;
        let (before, lent) = (vec![UNTOUCHED; room], running.reply.clone());
        let mut lines = before.clone();
        let (image, reply) = (&mut self.image, &mut running.reply);
        let told = self.library.run(format, image, stream, reply, &mut lines);
        let run = Run {
            format,
            stream,
            buffers: (&lent, reply),
            lines: (&before, &lines),
            told,
            image: &self.image,
        };
        let ends = checked(&mut self.tally.made, &mut self.store, run)?;
        let stopped = ends.last().copied().unwrap_or(0);
        let more = whole(format, stream, stopped).is_some();
        self.tally.fault_if(more, Fault::NoLine);
        let cut = !more && stopped < bytes;
        self.tally.fault_if(cut, Fault::CutStream);
        running.at += stopped;
        let lines = lines.chunks_exact(LINE).take(ends.len()).map(answer_in);
        running.answers.extend(lines);
        Ok(!more && bytes == left)
    }

    /// The commands of a run are by the rules of their desks, and the store in
    /// which a commit is one step hears of each; of a read whose text is no longer
    /// in the reply buffer it does not.
    fn beside_run(&mut self, taken: &[Message], running: &Running, last: Option<usize>) -> Checked {
        self.reply.clone_from(&running.reply);
        for (at, (message, answer)) in taken.iter().zip(&running.answers).enumerate() {
            let command = message.body.as_command().map(|command| command.1);
            let sent = command.and_then(|bytes| formed_as(running.format, bytes));
            let Some(sent) = sent.filter(|sent| usize::from(sent.card) < self.shape.cards) else {
                continue;
            };
            self.in_its_mode(sent.card.into(), sent.mode, sent.update)?;
            if last == Some(at) || answer.number != 0 || sent.reads().is_none() {
                self.beside_heard(&sent, answer)?;
            }
        }
        (0..self.shape.cards).try_for_each(|card| self.stands(card))
    }

    /// The answers go back. Of all texts that were read only the last is still
    /// in the reply buffer.
    fn answer_run(&mut self, taken: &[Message], running: &Running, last: Option<usize>) {
        let operation = match running.format {
            Format::V1 => Operation::Run,
            Format::V2 => Operation::Run2,
        };
        for (at, (message, answer)) in taken.iter().zip(&running.answers).enumerate() {
            self.tally.number(operation, answer.number);
            let Some((format, bytes, line)) = message.body.as_command() else {
                continue;
            };
            let from = (message.desk, message.who, message.card);
            self.came(from, format, bytes, answer);
            let (act, language) = act_in(format, bytes);
            let (act, text) = match last == Some(at) {
                true => (act, running.reply[..answer.fields[6] as usize].to_vec()),
                false if act <= 2 => (5, Vec::new()),
                false => (act, Vec::new()),
            };
            let told = Body::Told((act, language), line, *answer, text);
            self.answer_to(message.desk, message.who, message.card, told);
        }
    }
}

/// The bytes of each command.
fn commands(taken: &[Message]) -> Vec<&[u8]> {
    let bytes = taken.iter().filter_map(|message| message.body.as_command());
    bytes.map(|(_, bytes, _)| bytes).collect()
}

/// The last of the commands whose text is shown.
fn last_shown(taken: &[Message], running: &Running) -> Option<usize> {
    let shown = |(message, answer): (&Message, &Answer)| {
        let command = message.body.as_command().map(|command| command.1);
        let sent = command.and_then(|bytes| formed_as(running.format, bytes));
        answer.number == 0 && sent.is_some_and(|sent| sent.reads().is_some())
    };
    taken.iter().zip(&running.answers).rposition(shown)
}
