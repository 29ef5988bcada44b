//! The picture as a sheet to read and print. Pages stand in rows; a run is one
//! box over its pages, and a class page is filled from below as far as its chunks
//! are in use.

use danumrikal::CLASSES;

use super::counts;
use super::pen::{wrapped, Area, Pen};
use super::Picture;
use crate::class;
use crate::verdict::{meaning, Verdict};
use crate::view::{Kind, Span};

/// The sheet's width. On A4 it would be 1,414 high, and no sheet is higher.
const WIDTH: usize = 1_000;
const LEFT: usize = 56;
const RIGHT: usize = 20;
/// How far a run that goes on in another row stands out there.
const OVER: usize = 7;

/// A colour for each class: people who see few colours can tell them apart, and
/// black letters can be read on each.
const CLASS_COLORS: [&str; CLASSES] = [
    "#99ddff", "#77aadd", "#44bb99", "#bbcc33", "#aaaa00", "#eedd88", "#ee8866", "#ffaabb",
    "#c9b3e6",
];
const TAKEN: &str = "#555b66";
const FREE: &str = "#ffffff";
const ODD: &str = "#ffdcdc";
const INK: &str = "#1a1a1a";
const GREY: &str = "#666666";
const RED: &str = "#c00000";
const BORDER: &str = r##"stroke="#b0b0b0""##;

/// The sheet.
pub fn sheet(picture: &Picture) -> String {
    let mut sheet = Sheet {
        pen: Pen::default(),
        grid: Grid::of(picture.pages()),
        y: 44,
    };
    sheet.title(picture);
    if !picture.spans.is_empty() {
        sheet.pages(picture);
        sheet.legend(picture);
    }
    let (height, elements) = (sheet.y + 16, sheet.pen.elements);
    format!(
        r#"<svg xmlns="http://www.w3.org/2000/svg" width="{WIDTH}" height="{height}" viewBox="0 0 {WIDTH} {height}" font-family="Helvetica, Arial, sans-serif" fill="{INK}">
<rect width="{WIDTH}" height="{height}" fill="{FREE}"/>
{elements}</svg>
"#
    )
}

/// How the pages stand.
#[derive(Clone, Copy)]
struct Grid {
    /// Pages of a row.
    row: usize,
    /// Width and height of a cell.
    cell: usize,
    /// The size of letters in cells.
    letters: usize,
}

impl Grid {
    /// Rows of a round number of pages, so that the largest pool fits on a sheet.
    fn of(pages: usize) -> Grid {
        let (row, letters) = match pages {
            ..=256 => (16, 15),
            257..=1_024 => (32, 12),
            _ => (64, 10),
        };
        let cell = (WIDTH - LEFT - RIGHT) / row;
        Grid { row, cell, letters }
    }
}

struct Sheet {
    pen: Pen,
    grid: Grid,
    /// How far down the sheet is filled.
    y: usize,
}

impl Sheet {
    /// The file's name, the verdict, and what broke.
    fn title(&mut self, picture: &Picture) {
        let bold = r#"font-weight="bold""#;
        self.pen.text((LEFT, self.y), 22, bold, &picture.name);
        self.y += 26;
        let line = picture.verdict.line();
        match &picture.verdict {
            Verdict::Sound { .. } => self.pen.text((LEFT, self.y), 16, "", &line),
            Verdict::Broken { rule, fault } => {
                let red = format!(r#"fill="{RED}" {bold}"#);
                self.pen.text((LEFT, self.y), 16, &red, &line);
                let found = fault.as_ref().map(|fault| format!("found: {fault}"));
                let asked = format!("asked: {}", meaning(*rule));
                for text in found.into_iter().chain([asked]) {
                    for line in wrapped(&text) {
                        self.y += 20;
                        self.pen.text((LEFT, self.y), 14, "", &line);
                    }
                }
            }
        }
        self.y += 24;
    }

    /// The pages, and the mark of the one that broke.
    fn pages(&mut self, picture: &Picture) {
        let Grid { row, cell, .. } = self.grid;
        let rows = picture.pages().div_ceil(row);
        let broken = picture.verdict.fault().and_then(|fault| fault.page());
        for number in 0..rows {
            let color = match broken {
                Some(page) if page / row == number => RED,
                _ => GREY,
            };
            let style = format!(r#"text-anchor="end" fill="{color}""#);
            let at = (LEFT - 10, self.y + number * cell + cell / 2 + 4);
            self.pen.text(at, 11, &style, &(number * row).to_string());
        }
        for span in &picture.spans {
            self.pen.open(&told(span));
            self.span(span);
            self.pen.close();
        }
        if let Some(page) = broken {
            let ring = self.area(page, page + 1).grown(3);
            let style = format!(r#"stroke="{RED}" stroke-width="4""#);
            self.pen.rect(ring, "none", &style);
        }
        self.y += rows * cell + 34;
    }

    /// Where these pages of one row stand; a gap of a unit parts neighbours.
    fn area(&self, first: usize, end: usize) -> Area {
        let Grid { row, cell, .. } = self.grid;
        Area {
            x: LEFT + first % row * cell + 1,
            y: self.y + first / row * cell + 1,
            width: (end - first) * cell - 2,
            height: cell - 2,
        }
    }

    fn span(&mut self, span: &Span) {
        match span.kind {
            Kind::Free => self.run(span, FREE, BORDER, GREY),
            Kind::Taken => self.run(span, TAKEN, "", FREE),
            Kind::Chunks { class, used } => {
                let area = self.area(span.first, span.first + 1);
                self.class_page(class, used, area);
            }
            Kind::Odd => {
                let area = self.area(span.first, span.first + 1);
                self.pen.rect(area, ODD, BORDER);
                self.pen.centred(area, self.grid.letters, RED, "?");
            }
        }
    }

    /// A run, row by row, with its number of pages in its widest part.
    fn run(&mut self, span: &Span, color: &str, style: &str, ink: &str) {
        let row = self.grid.row;
        let end = span.first + span.length;
        let mut widest: Option<Area> = None;
        let mut at = span.first;
        while at < end {
            let next = end.min((at / row + 1) * row);
            let mut area = self.area(at, next);
            if widest.is_none_or(|widest| widest.width < area.width) {
                widest = Some(area);
            }
            if at > span.first {
                area.x -= OVER;
                area.width += OVER;
            }
            if next < end {
                area.width += OVER;
            }
            self.pen.rect(area, color, style);
            at = next;
        }
        let label = span.length.to_string();
        let letters = self.grid.letters;
        if let Some(area) = widest.filter(|area| area.width > label.len() * letters * 3 / 5) {
            self.pen.centred(area, letters, ink, &label);
        }
    }

    /// A class page: its colour pale, and full as far as chunks are in use.
    fn class_page(&mut self, class: usize, used: usize, area: Area) {
        let counted = class::counted(class);
        let color = CLASS_COLORS[class];
        // one chunk in use is seen, and one free chunk too
        let height = match used {
            0 => 0,
            used if used >= counted => area.height,
            used => (area.height * used / counted).clamp(1, area.height - 1),
        };
        let y = area.y + area.height - height;
        self.pen.rect(area, color, r#"fill-opacity="0.25""#);
        self.pen.rect(Area { y, height, ..area }, color, "");
        let letters = self.grid.letters;
        match self.grid.row {
            16 => {
                let half = area.height / 2;
                let (upper, lower) = (
                    Area {
                        height: half + 6,
                        ..area
                    },
                    Area {
                        y: area.y + half,
                        height: half,
                        ..area
                    },
                );
                self.pen
                    .centred(upper, letters, INK, &class::chunk(class).to_string());
                self.pen
                    .centred(lower, 11, INK, &format!("{used}/{counted}"));
            }
            32 => self.pen.centred(area, letters, INK, &class::short(class)),
            _ => {}
        }
    }

    /// What the boxes mean, with the counts, in two columns.
    fn legend(&mut self, picture: &Picture) {
        let items = counts::lines(&picture.spans);
        let half = items.len().div_ceil(2);
        for (number, (kind, what)) in items.iter().enumerate() {
            let color = match kind {
                Kind::Free => FREE,
                Kind::Taken => TAKEN,
                Kind::Odd => ODD,
                Kind::Chunks { class, .. } => CLASS_COLORS[*class],
            };
            let x = LEFT + number / half * WIDTH / 2;
            let y = self.y + number % half * 24;
            let sample = Area {
                x,
                y: y - 12,
                width: 16,
                height: 16,
            };
            self.pen.rect(sample, color, BORDER);
            self.pen.text((x + 26, y + 1), 14, "", what);
        }
        self.y += half * 24 + 10;
        let note = "A box is a run with its number of pages; a page of chunks is filled from \
                    below as far as they are in use. A run that stands out at the side goes on in the \
                    next row. At the left stands the first page of a row.";
        for line in wrapped(note) {
            let style = format!(r#"fill="{GREY}""#);
            self.pen.text((LEFT, self.y), 12, &style, &line);
            self.y += 17;
        }
    }
}

/// What a pointer over a span tells.
fn told(span: &Span) -> String {
    let pages = match span.length {
        1 => format!("page {}", span.first),
        length => format!("pages {} to {}", span.first, span.first + length - 1),
    };
    match span.kind {
        Kind::Free => format!("{pages}: free"),
        Kind::Taken => format!("{pages}: taken as one block"),
        Kind::Chunks { class, used } => {
            let (size, counted) = (class::chunk(class), class::counted(class));
            format!("{pages}: {size} bytes, {used} of {counted} chunks in use")
        }
        Kind::Odd => format!("{pages}: unreadable"),
    }
}
