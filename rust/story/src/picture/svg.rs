//! Elements of SVG.

/// A place: to the right, and down.
pub type At = (i32, i32);

/// A text of SVG elements.
#[derive(Clone, Debug, Default)]
pub struct Svg(pub String);

/// A text in which the signs of SVG stand for themselves, and what XML cannot hold is replaced.
pub fn safe(text: &str) -> String {
    let mut safe = String::with_capacity(text.len());
    for sign in text.chars() {
        match sign {
            '&' => safe.push_str("&amp;"),
            '<' => safe.push_str("&lt;"),
            '>' => safe.push_str("&gt;"),
            '"' => safe.push_str("&quot;"),
            '\u{fffe}' | '\u{ffff}' => safe.push('\u{fffd}'),
            sign if sign.is_control() => safe.push('\u{fffd}'),
            sign => safe.push(sign),
        }
    }
    safe
}

/// About how wide a text is, in a font of this size: rather too wide than too narrow.
pub fn width_of(text: &str, size: i32) -> i32 {
    let hundredths = |sign: char| match sign {
        'i' | 'j' | 'l' | '.' | ',' | ':' | ';' | '\'' | '|' | ' ' => 36,
        'f' | 'r' | 't' | '(' | ')' | '-' | '"' => 47,
        'm' | 'w' | 'M' | 'W' | '%' | '\u{2026}' => 100,
        sign if sign.is_ascii() => 65,
        sign if (sign as u32) < 0x2e80 => 70,
        _ => 105,
    };
    let all: i32 = text.chars().map(hundredths).sum();
    (all * size).div_euclid(100) + 1
}

impl Svg {
    /// A line as it is.
    pub fn line(&mut self, line: &str) {
        self.0.push_str(line);
        self.0.push('\n');
    }

    /// A rectangle by its left upper corner and its size.
    pub fn rect(&mut self, (x, y): At, (wide, high): (i32, i32), style: &str) {
        let (wide, high) = (wide.max(0), high.max(0));
        self.line(&format!(
            "<rect x=\"{x}\" y=\"{y}\" width=\"{wide}\" height=\"{high}\" {style}/>"
        ));
    }

    /// A text.
    pub fn text(&mut self, (x, y): At, style: &str, text: &str) {
        let text = safe(text);
        self.line(&format!("<text x=\"{x}\" y=\"{y}\" {style}>{text}</text>"));
    }

    /// A line from one point to another.
    pub fn stroke(&mut self, (a, b): At, (c, d): At, style: &str) {
        self.line(&format!(
            "<line x1=\"{a}\" y1=\"{b}\" x2=\"{c}\" y2=\"{d}\" {style}/>"
        ));
    }

    /// A path.
    pub fn path(&mut self, path: &str, style: &str) {
        self.line(&format!("<path d=\"{path}\" {style}/>"));
    }

    /// What follows up to `close` is told in words where the mouse rests.
    pub fn open(&mut self, words: &str) {
        self.line(&format!("<g><title>{}</title>", safe(words)));
    }

    /// See [`Svg::open`].
    pub fn close(&mut self) {
        self.line("</g>");
    }

    /// What follows up to `close` is moved so far.
    pub fn open_at(&mut self, (x, y): At) {
        self.line(&format!("<g transform=\"translate({x} {y})\">"));
    }
}
