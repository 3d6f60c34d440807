//! Makes the lock queue of one card, of two places, and runs the example of rule 7.15.

use lupaniele::{Mode, Number, Pair, Queue, QueueAnswer, Stamp};

fn told(who: &str, queue: &Queue, answer: QueueAnswer) {
    let holds = if answer.holds {
        "holds"
    } else {
        "does not hold"
    };
    let (number, looked_at) = (answer.number, answer.looked_at);
    let standing = queue.standing().count();
    println!("{who}: {number}, {holds}, looked at {looked_at}, {standing} stand");
}

fn main() -> Result<(), Number> {
    let mut queue = Queue::new(2)?;
    let [first, second, third] = [1, 2, 3].map(|desk| Stamp::new(u32::from(desk), desk, 0));
    let asks = [
        ("desk 1 asks shared", Mode::Shared, first, Stamp::NONE),
        ("desk 2 asks shared", Mode::Shared, second, Stamp::NONE),
        (
            "desk 1 upgrades with too small an s",
            Mode::Exclusive,
            first,
            first,
        ),
        ("desk 1 upgrades", Mode::Exclusive, second, first),
        (
            "desk 1 asks exclusive again",
            Mode::Exclusive,
            second,
            Stamp::new(2, 1, 0),
        ),
        (
            "desk 2 asks shared again",
            Mode::Shared,
            Stamp::new(3, 2, 0),
            first,
        ),
        ("desk 3 asks shared", Mode::Shared, third, first),
    ];
    for (who, mode, s, x) in asks {
        let answer = queue.ask(mode, Pair::new(s, x));
        told(who, &queue, answer);
    }
    let answer = queue.leave(second.desk_id());
    told("desk 2 leaves", &queue, answer);
    Ok(())
}
