//! docs/FORMS.md shows the forms as they are: each of its blocks is read, and written again as it stands there.

use lupaniele::Version;

/// The blocks of the page, each with what it shows.
fn blocks(page: &str) -> Vec<(&str, &str)> {
    let parts = page.split("\n```text ").skip(1);
    let blocks = parts.map(|part| {
        let (kind, rest) = part.split_once('\n').expect("a block has lines");
        (kind, rest.split_once("```").expect("a block ends").0)
    });
    blocks.collect()
}

fn written_again(kind: &str, block: &str) -> forms::Got<String> {
    match kind {
        "steps" => Ok(forms::steps(&forms::read_steps(block)?)),
        "image" => Ok(forms::image(&forms::read_image(block)?)),
        "log" => Ok(forms::log(&forms::read_log(block)?)),
        "list" => {
            let mut list = String::new();
            for mut line in forms::lines(block)? {
                let command = forms::read_command(&mut line, Version::One)?;
                line.done()?;
                list += &format!("{}\n", forms::command(Version::One, &command));
            }
            Ok(list)
        }
        other => panic!("{other} is no form"),
    }
}

#[test]
fn the_page_shows_the_forms() {
    let page = include_str!("../../../docs/FORMS.md");
    let blocks = blocks(page);
    assert_eq!(blocks.len(), 4);
    for (kind, block) in blocks {
        assert_eq!(written_again(kind, block).as_deref(), Ok(block), "{kind}");
    }
}
