//! Boxes and letters in SVG.

/// Letters of a line that is as wide as the sheet.
const LINE: usize = 126;

/// A box.
#[derive(Clone, Copy)]
pub struct Area {
    pub x: usize,
    pub y: usize,
    pub width: usize,
    pub height: usize,
}

impl Area {
    /// The box, larger by so much on each side.
    pub fn grown(self, by: usize) -> Area {
        Area {
            x: self.x - by,
            y: self.y - by,
            width: self.width + 2 * by,
            height: self.height + 2 * by,
        }
    }
}

/// The elements of a sheet, as they come.
#[derive(Default)]
pub struct Pen {
    pub elements: String,
}

impl Pen {
    fn add(&mut self, element: &str) {
        self.elements += element;
        self.elements += "\n";
    }

    /// Letters of a size on a line that begins here, or as `style` says.
    pub fn text(&mut self, (x, y): (usize, usize), size: usize, style: &str, text: &str) {
        let text = escaped(text);
        let at = format!(r#"x="{x}" y="{y}" font-size="{size}""#);
        self.add(&format!("<text {at} {style}>{text}</text>"));
    }

    /// Letters in the middle of a box.
    pub fn centred(&mut self, area: Area, size: usize, color: &str, text: &str) {
        let at = (
            area.x + area.width / 2,
            area.y + (area.height + size * 3 / 4) / 2,
        );
        let style = format!(r#"text-anchor="middle" fill="{color}""#);
        self.text(at, size, &style, text);
    }

    /// A box filled with a colour; `style` may say more.
    pub fn rect(&mut self, area: Area, color: &str, style: &str) {
        let Area {
            x,
            y,
            width,
            height,
        } = area;
        let at = format!(r#"x="{x}" y="{y}" width="{width}" height="{height}""#);
        self.add(&format!(r#"<rect {at} fill="{color}" {style}/>"#));
    }

    /// Begins a group; a pointer over it tells this.
    pub fn open(&mut self, told: &str) {
        self.add(&format!("<g><title>{}</title>", escaped(told)));
    }

    /// Ends a group.
    pub fn close(&mut self) {
        self.add("</g>");
    }
}

/// A text as XML has it, which knows no control characters.
fn escaped(text: &str) -> String {
    let text = text.replace('&', "&amp;");
    let text = text.replace('<', "&lt;").replace('>', "&gt;");
    text.replace(char::is_control, "\u{fffd}")
}

/// A text in lines that fit on the sheet.
pub fn wrapped(text: &str) -> Vec<String> {
    let mut lines: Vec<String> = Vec::new();
    for word in text.split_whitespace() {
        match lines.last_mut() {
            Some(line) if line.len() + 1 + word.len() <= LINE => {
                line.push(' ');
                line.push_str(word);
            }
            _ => lines.push(word.to_owned()),
        }
    }
    lines
}
