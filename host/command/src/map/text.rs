//! The picture in characters. A page is a cell: of four characters in a small
//! pool, with sizes and lengths, of one in a large one.

use super::{counts, Fill, Picture};
use crate::class;
use crate::verdict::{meaning, Verdict};
use crate::view::{Kind, Span};

/// The most pages that are drawn with wide cells.
const SMALL: usize = 256;
/// Characters of a wide cell.
const WIDE: usize = 4;
/// Characters before a row: the number of its first page, and two blanks.
const MARGIN: usize = 6;
/// The most cells of a row.
const LONGEST_ROW: usize = 128;
/// Characters before the counts.
const SAMPLE: usize = 8;

/// The picture, for so many columns.
pub fn picture(picture: &Picture, width: usize, color: bool) -> String {
    let mut text = format!("{}: {}\n", picture.name, picture.verdict.line());
    if let Verdict::Broken { rule, fault } = &picture.verdict {
        let found = fault.as_ref().map(|fault| format!("  found: {fault}\n"));
        text += &found.unwrap_or_default();
        text += &format!("  asked: {}\n", meaning(*rule));
    }
    if picture.spans.is_empty() {
        return text;
    }
    let cell = if picture.pages() <= SMALL { WIDE } else { 1 };
    let fits = (width.saturating_sub(MARGIN) / cell).clamp(1, LONGEST_ROW);
    let frame = Frame {
        cell,
        row: 1 << fits.ilog2(), // the first pages of rows are then round numbers
        color,
    };
    text + "\n" + &frame.rows(picture) + "\n" + &frame.legend(picture)
}

/// How the picture is drawn.
struct Frame {
    /// Characters of a cell.
    cell: usize,
    /// Cells of a row.
    row: usize,
    color: bool,
}

/// What is told apart by colour.
#[derive(Clone, Copy, PartialEq)]
enum Tone {
    Free,
    Taken,
    Fill(usize),
    Fault,
}

/// The character of a fill, and its tone.
fn step(fill: Fill) -> (char, Tone) {
    match fill {
        Fill::Quarter => ('-', Tone::Fill(0)),
        Fill::Half => ('+', Tone::Fill(1)),
        Fill::More => ('*', Tone::Fill(2)),
        Fill::Full => ('#', Tone::Fill(3)),
    }
}

impl Frame {
    /// A text in a tone, of the terminal's 256 colours.
    fn paint(&self, tone: Tone, text: &str) -> String {
        let code = match tone {
            Tone::Free => "38;5;245",
            Tone::Taken => "38;5;255;48;5;61",
            Tone::Fill(0) => "38;5;16;48;5;194",
            Tone::Fill(1) => "38;5;16;48;5;150",
            Tone::Fill(2) => "38;5;16;48;5;71",
            Tone::Fill(_) => "38;5;231;48;5;22",
            Tone::Fault => "1;38;5;231;48;5;160",
        };
        match self.color {
            true => format!("\x1b[{code}m{text}\x1b[0m"),
            false => text.to_owned(),
        }
    }

    /// What is written over the cells of a span, and in which tone.
    fn written(&self, span: &Span) -> (String, Tone) {
        match span.kind {
            Kind::Free => (self.run(span, ['.', '.', '.'], '.'), Tone::Free),
            Kind::Taken => (self.run(span, ['[', '=', ']'], '|'), Tone::Taken),
            Kind::Odd => ("?".repeat(span.length * self.cell), Tone::Fault),
            Kind::Chunks { class, used } => {
                let (mark, tone) = step(Fill::of(used, class::counted(class)));
                match self.cell {
                    1 => (mark.to_string(), tone),
                    _ => (format!("{:>3}{mark}", class::short(class)), tone),
                }
            }
        }
    }

    /// A run, with its length where that fits in; never over the end of a row.
    fn run(&self, span: &Span, [open, inside, close]: [char; 3], alone: char) -> String {
        let width = span.length * self.cell;
        if width == 1 {
            return alone.to_string();
        }
        let mut number = span.length.to_string();
        if number.len() + 2 > width {
            number.clear();
        }
        let room = (self.row - span.first % self.row) * self.cell;
        let before = match 1 + number.len() > room {
            true => room - 1,
            false => 0,
        };
        let fill = |count| inside.to_string().repeat(count);
        let after = width - 2 - number.len() - before;
        format!("{open}{}{number}{}{close}", fill(before), fill(after))
    }

    /// The pages in rows, each with the number of its first page. Under a row in
    /// which the pool broke, the page is marked.
    fn rows(&self, picture: &Picture) -> String {
        let mut cells: Vec<(String, Tone)> = Vec::new();
        for span in &picture.spans {
            let (text, tone) = self.written(span);
            let parts = text.as_bytes().chunks(self.cell);
            cells.extend(parts.map(|part| (String::from_utf8_lossy(part).into_owned(), tone)));
        }
        let fault = picture.verdict.fault().and_then(|fault| fault.page());
        if let Some(broken) = fault.and_then(|page| cells.get_mut(page)) {
            broken.1 = Tone::Fault;
        }
        let mut text = String::new();
        for (number, cells) in cells.chunks(self.row).enumerate() {
            let first = number * self.row;
            text += &format!("{first:>4}  ");
            for same in cells.chunk_by(|one, next| one.1 == next.1) {
                let joined: String = same.iter().map(|(text, _)| text.as_str()).collect();
                text += &self.paint(same[0].1, &joined);
            }
            text += "\n";
            let here = |page: &usize| (first..first + cells.len()).contains(page);
            if let Some(page) = fault.filter(here) {
                let before = " ".repeat(MARGIN + (page - first) * self.cell);
                text += &format!("{before}{} page {page}\n", "^".repeat(self.cell));
            }
        }
        text
    }

    /// The counts, each with a sample, and what the marks of fill mean.
    fn legend(&self, picture: &Picture) -> String {
        let counts = counts::lines(&picture.spans);
        let mut text = String::new();
        for (kind, what) in &counts {
            let (sample, tone) = self.sample(*kind);
            let blanks = " ".repeat(SAMPLE - sample.len());
            text += &format!("{blanks}{}  {what}\n", self.paint(tone, &sample));
        }
        if counts
            .iter()
            .any(|(kind, _)| matches!(kind, Kind::Chunks { .. }))
        {
            let marks = [
                (Fill::Quarter, "under a quarter"),
                (Fill::Half, "under a half"),
                (Fill::More, "half or more"),
                (Fill::Full, "full"),
            ];
            let marks = marks.map(|(fill, what)| {
                let (mark, tone) = step(fill);
                format!("{} {what}", self.paint(tone, &mark.to_string()))
            });
            text += &format!("  chunks in use: {}\n", marks.join(", "));
        }
        text
    }

    /// How a kind of span looks.
    fn sample(&self, kind: Kind) -> (String, Tone) {
        match (kind, self.cell) {
            (Kind::Free, 1) => (".n.".to_owned(), Tone::Free),
            (Kind::Free, _) => (".n..".to_owned(), Tone::Free),
            (Kind::Taken, 1) => ("| [] [n]".to_owned(), Tone::Taken),
            (Kind::Taken, _) => ("[n=]".to_owned(), Tone::Taken),
            _ => {
                let (first, length) = (0, 1);
                let (text, tone) = self.written(&Span {
                    first,
                    length,
                    kind,
                });
                (text.trim_start().to_owned(), tone)
            }
        }
    }
}
