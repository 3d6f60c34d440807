//! What a picture must not get wrong: how translations stand, that figures can be read, that everything stays in its
//! place, that the legend has the signs that occur and no others, and that steps have their numbers.

mod common;

use common::{elements, Element};
use story::Story;

const LANE: &str = "#f3f5f8";
const CURRENT: &str = "#c4e8cd";
const BEHIND: &str = "url(#behind)";
const UNTRANSLATED: &str = "#f3e3bd";
const NOTHING: &str = "#aab1bb";
const DOWN: &str = "url(#down)";
const RECOVERY: &str = "#ece4fb";

fn drawn(lines: &str) -> Vec<Element> {
    let text = format!("# A title\n{lines}\n");
    let story = Story::read(&text).unwrap_or_else(|wrong| panic!("{wrong}\n{text}"));
    elements(&story.drawn())
}

fn file(name: &str) -> Vec<Element> {
    let top = concat!(env!("CARGO_MANIFEST_DIR"), "/../../docs/pictures/");
    let text = std::fs::read_to_string(format!("{top}{name}.txt")).unwrap();
    elements(&Story::read(&text).unwrap().drawn())
}

const FILES: [&str; 7] = [
    "late-card",
    "behind-card",
    "power-cut",
    "two-cards",
    "conversion",
    "queue",
    "case-p",
];

fn filled<'a>(all: &'a [Element], fill: &str) -> Vec<&'a Element> {
    let rects = all.iter().filter(|element| element.name == "rect");
    rects.filter(|rect| rect.get("fill") == fill).collect()
}

fn texts(all: &[Element]) -> Vec<&str> {
    let texts = all.iter().filter(|element| element.name == "text");
    texts.map(|element| &element.text[..]).collect()
}

/// The rectangles that show how a translation stands: those wider than a legend's sign.
fn strips(all: &[Element]) -> Vec<&Element> {
    let fills = [CURRENT, BEHIND, UNTRANSLATED];
    let strips = fills.iter().flat_map(|fill| filled(all, fill));
    strips
        .filter(|rect| !rect.get("stroke").is_empty() && rect.moved != (0, 0))
        .collect()
}

const KEPT: &str = "cards 1 room 32\n\
                    card 0\n\
                    \x20 pair (2.2.0, 2.2.0)\n\
                    \x20 original edition 3 text \"205\"\n\
                    \x20 translation from 3 text \"401\"\n";

#[test]
fn a_current_translation_that_is_written_again_was_never_behind() {
    let all = drawn(&format!(
        "{KEPT}exclusive write translation of card 0 by (3.2.0, 3.2.0) edition 3 text \"402\""
    ));
    assert!(filled(&all, BEHIND).is_empty() && filled(&all, UNTRANSLATED).is_empty());
    assert_eq!(strips(&all).len(), 1);
    assert!(
        texts(&all).contains(&"edition 3, current"),
        "{:?}",
        texts(&all)
    );
}

#[test]
fn a_translation_is_behind_from_the_write_on() {
    let all = drawn(&format!(
        "{KEPT}shared read original of card 0 by (3.2.0, 2.2.0)\n\
         exclusive write original of card 0 by (4.2.0, 4.2.0) text \"207\"\n\
         shared read original of card 0 by (5.2.0, 4.2.0)"
    ));
    let (current, behind) = (filled(&all, CURRENT), filled(&all, BEHIND));
    let in_band = |rects: &[&Element]| -> Vec<[i32; 4]> {
        let in_band = rects.iter().filter(|rect| rect.moved != (0, 0));
        in_band.map(|rect| rect.sides()).collect()
    };
    let ([current], [behind]) = (&in_band(&current)[..], &in_band(&behind)[..]) else {
        panic!("one part current, one behind");
    };
    assert_eq!(current[2], behind[0]);
}

#[test]
fn a_text_keeps_its_figure() {
    for text in [
        "Tøm ved 205 C",
        "Let the drum cool, then drop at 205 C",
        "temperature-for-the-drop:205-C",
        "Santos from the dark side of the hill, dropped a little late, at 205 C, and cooled",
    ] {
        let room = 96;
        let all = drawn(&format!(
            "cards 1 room {room}\nexclusive write original of card 0 by (1.1.0, 1.1.0) text \"{text}\""
        ));
        let seen = texts(&all).join(" ");
        assert!(seen.contains("205"), "{text}: {seen}");
    }
    let all = drawn(
        "cards 1 room 96\nexclusive write original of card 0 by (1.1.0, 1.1.0) \
         steps (words \"Let the drum cool before the next charge\", drop 205.5 C)",
    );
    assert!(
        texts(&all).join(" ").contains("205.5 C"),
        "{:?}",
        texts(&all)
    );
}

#[test]
fn strips_are_as_long_as_the_lanes() {
    for name in FILES {
        let all = file(name);
        let lanes: Vec<[i32; 4]> = filled(&all, LANE).iter().map(|lane| lane.sides()).collect();
        let (left, right) = (lanes[0][0], lanes[0][2]);
        assert!(
            lanes.iter().all(|lane| (lane[0], lane[2]) == (left, right)),
            "{name}"
        );
        let strips = strips(&all);
        let nothing = all
            .iter()
            .filter(|rect| rect.name == "rect" && rect.get("stroke") == NOTHING);
        let nothing = nothing.filter(|rect| rect.moved != (0, 0));
        let mut rows: std::collections::BTreeMap<i32, Vec<[i32; 4]>> = Default::default();
        for strip in strips.into_iter().chain(nothing) {
            rows.entry(strip.sides()[1])
                .or_default()
                .push(strip.sides());
        }
        for (y, mut parts) in rows {
            parts.sort();
            // A language that a store gets later begins later; but for that a row begins with the lane.
            assert!(parts[0][0] == left || name == "conversion", "{name}, {y}");
            assert_eq!(parts.last().unwrap()[2], right, "{name}, {y}");
            assert!(
                parts.windows(2).all(|two| two[0][2] == two[1][0]),
                "{name}, {y}"
            );
        }
    }
}

/// Whether a rectangle stands in one of those.
fn within(inner: &Element, outer: &[&Element]) -> bool {
    let a = inner.sides();
    outer.iter().any(|outer| {
        let b = outer.sides();
        a[0] >= b[0] && a[1] >= b[1] && a[2] <= b[2] && a[3] <= b[3]
    })
}

#[test]
fn hatching_and_recovery_stay_in_their_lanes() {
    let cut = "cards 1 room 32\nexclusive write original of card 0 by (1.1.0, 1.1.0) text \"205\"\ndesk 1.0 goes down";
    for all in [
        file("power-cut"),
        drawn(cut),
        drawn(&format!("{cut}\ndesk 2.0 starts")),
    ] {
        let lanes = filled(&all, LANE);
        let in_band = |rect: &&&Element| rect.moved != (0, 0);
        let (down, recovery) = (filled(&all, DOWN), filled(&all, RECOVERY));
        assert!(down.iter().filter(in_band).count() > 0);
        for rect in down.iter().chain(&recovery).filter(in_band) {
            assert!(within(rect, &lanes), "{rect:?}");
        }
    }
}

#[test]
fn the_word_recovery_stands_in_its_frame() {
    // With more steps the columns are as narrow as they can be.
    for steps in [0, 1, 7, 20, 70] {
        let before = "desk 1.0 logs begin 1\n".repeat(steps);
        let all = drawn(&format!("cards 1 room 32\n{before}desk 1.0 recovers"));
        let frames = filled(&all, RECOVERY).into_iter();
        let frames: Vec<&Element> = frames.filter(|frame| frame.moved != (0, 0)).collect();
        let at = all.iter().position(|element| element.text == "recovery");
        let before = all[..at.unwrap()].iter().rev();
        let pill = { before }.find(|element| element.name == "rect").unwrap();
        assert!(within(pill, &frames), "{steps}: {pill:?} {frames:?}");
    }
}

#[test]
fn the_legend_has_what_occurs() {
    let says = |all: &[Element], words: &str| texts(all).iter().any(|text| text.contains(words));
    let all = drawn("cards 1 room 32\nshared read original of card 0 by (1.1.0, none)");
    assert!(
        says(&all, "reads the original")
            && says(&all, "shared session")
            && says(&all, "no text yet")
    );
    for absent in [
        "writes",
        "verifies",
        "exclusive",
        "refused",
        "behind",
        "current",
        "mark",
        "cut",
        "recovery",
        "queue",
    ] {
        assert!(!says(&all, absent), "{absent}: {:?}", texts(&all));
    }
    let all = file("power-cut");
    for there in [
        "refused: stale",
        "refused: translation behind",
        "append cut",
        "power cut",
        "recovery, and",
    ] {
        assert!(says(&all, there), "{there}: {:?}", texts(&all));
    }
    assert!(!says(&all, "asks") && !says(&all, "commit mark"));
    let all = file("queue");
    for there in [
        "asks shared",
        "asks exclusive",
        "refused: denied",
        "refused: lease still runs",
        "refused: stale",
    ] {
        assert!(says(&all, there), "{there}: {:?}", texts(&all));
    }
}

#[test]
fn steps_have_numbers() {
    for name in FILES {
        let top = concat!(env!("CARGO_MANIFEST_DIR"), "/../../docs/pictures/");
        let story = std::fs::read_to_string(format!("{top}{name}.txt")).unwrap();
        let steps = Story::read(&story).unwrap().play().scenes.len();
        let all = file(name);
        let numbers = all
            .iter()
            .filter(|element| element.name == "text" && element.get("fill") == "#5b6470");
        let numbers: Vec<usize> = numbers
            .filter_map(|element| element.text.parse().ok())
            .collect();
        assert_eq!(numbers, (1..=steps).collect::<Vec<_>>(), "{name}");
    }
}

/// Every sign, word and part stands within the picture.
#[test]
fn everything_is_inside() {
    for name in FILES {
        let all = file(name);
        let (wide, high) = (all[0].number("width"), all[0].number("height"));
        assert!(wide <= 1_000, "{name}: {wide}");
        let patterns = all
            .iter()
            .position(|element| element.get("id") == "down")
            .unwrap()
            + 3;
        for element in all[patterns..]
            .iter()
            .filter(|element| element.name == "rect")
        {
            let [left, top, right, bottom] = element.sides();
            assert!(
                left >= 0 && top >= 0 && right <= wide && bottom <= high,
                "{name}: {element:?}"
            );
        }
        for element in all.iter().filter(|element| element.name == "text") {
            let (x, y) = (
                element.number("x") + element.moved.0,
                element.number("y") + element.moved.1,
            );
            assert!(
                x >= 0 && y >= 0 && x <= wide && y <= high,
                "{name}: {element:?}"
            );
        }
    }
}
