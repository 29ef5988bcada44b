//! The allocator in plain lists, with the order of every list written out. It
//! shares no code with the crate and predicts answers and records exactly.

const CHUNKS: [usize; 9] = [512, 256, 128, 64, 32, 16, 8, 4, 2];
const OWN: [usize; 9] = [8, 2, 1, 0, 0, 0, 0, 0, 0];
const NONE: usize = 65_535;

#[derive(Clone)]
enum Page {
    Free,
    Chunks { class: usize, marks: Vec<bool> },
    TakenFirst(usize),
    TakenInside,
}

pub struct Plain {
    edition: u8,
    pages: Vec<Page>,
    /// Free runs, head of the list first: first page and length.
    runs: Vec<(usize, usize)>,
    /// Class lists, head first.
    lists: [Vec<usize>; 9],
    reqs: [u32; 9],
    fails: [u32; 9],
    /// The largest used so far, which edition 2 shows.
    peak: [usize; 9],
}

impl Plain {
    pub fn new(edition: u8, pages: usize) -> Plain {
        Plain {
            edition,
            pages: vec![Page::Free; pages],
            runs: vec![(0, pages)],
            lists: Default::default(),
            reqs: [0; 9],
            fails: [0; 9],
            peak: [0; 9],
        }
    }

    /// The answer's offset or the refusal's number.
    pub fn alloc(&mut self, size: u32) -> Result<u32, u8> {
        let size = size as usize;
        if size == 0 {
            return Err(10);
        }
        if size > 2048 {
            let wanted = size.div_ceil(4096);
            let first = self.cut(wanted).ok_or(4)?;
            self.pages[first..first + wanted].fill(Page::TakenInside);
            self.pages[first] = Page::TakenFirst(wanted);
            return Ok(first as u32 * 4096);
        }
        let class = (0..9).find(|class| size <= 8 << class).unwrap();
        self.reqs[class] = self.reqs[class].saturating_add(1);
        if self.lists[class].is_empty() {
            let Some(page) = self.cut(1) else {
                self.fails[class] = self.fails[class].saturating_add(1);
                return Err(4);
            };
            let mut marks = vec![false; CHUNKS[class]];
            marks[..OWN[class]].fill(true);
            self.pages[page] = Page::Chunks { class, marks };
            self.lists[class].push(page);
        }
        let page = self.lists[class][0];
        let Page::Chunks { marks, .. } = &mut self.pages[page] else {
            panic!("page {page} on the list of class {class} is none of its pages");
        };
        let chunk = marks.iter().position(|mark| !mark).unwrap();
        marks[chunk] = true;
        if marks.iter().all(|mark| *mark) {
            self.lists[class].remove(0);
        }
        self.peak[class] = self.peak[class].max(self.used(class));
        Ok((page * 4096 + chunk * (8 << class)) as u32)
    }

    /// The class's chunks in callers' hands.
    fn used(&self, class: usize) -> usize {
        let of_page = |page: &Page| match page {
            Page::Chunks { class: of, marks } if *of == class => {
                marks.iter().filter(|mark| **mark).count() - OWN[class]
            }
            _ => 0,
        };
        self.pages.iter().map(of_page).sum()
    }

    /// The bytes released or the refusal's number.
    pub fn free(&mut self, offset: u32) -> Result<u32, u8> {
        let (page, within) = (offset as usize / 4096, offset as usize % 4096);
        match self.pages.get_mut(page) {
            None => Err(5),
            Some(Page::Free) => Err(6),
            Some(Page::TakenInside) => Err(7),
            Some(Page::TakenFirst(_)) if within != 0 => Err(7),
            Some(Page::TakenFirst(length)) => {
                let length = *length;
                self.release(page, length);
                Ok(length as u32 * 4096)
            }
            Some(Page::Chunks { class, marks }) => {
                let class = *class;
                let chunk = within / (8 << class);
                if within % (8 << class) != 0 || chunk < OWN[class] {
                    return Err(7);
                }
                if !marks[chunk] {
                    return Err(6);
                }
                if marks.iter().all(|mark| *mark) {
                    self.lists[class].insert(0, page);
                }
                marks[chunk] = false;
                if marks.iter().filter(|mark| **mark).count() == OWN[class] {
                    self.lists[class].retain(|listed| *listed != page);
                    self.release(page, 1);
                }
                Ok(8 << class)
            }
        }
    }

    fn cut(&mut self, wanted: usize) -> Option<usize> {
        let place = self.runs.iter().position(|run| run.1 >= wanted)?;
        let (first, length) = self.runs[place];
        if length == wanted {
            self.runs.remove(place);
        } else {
            self.runs[place] = (first + wanted, length - wanted);
        }
        Some(first)
    }

    fn release(&mut self, page: usize, length: usize) {
        self.pages[page..page + length].fill(Page::Free);
        let (mut first, mut whole) = (page, length);
        if let Some(after) = self.runs.iter().position(|run| run.0 == page + length) {
            whole += self.runs.remove(after).1;
        }
        if let Some(before) = self.runs.iter().position(|run| run.0 + run.1 == page) {
            let before = self.runs.remove(before);
            first = before.0;
            whole += before.1;
        }
        self.runs.insert(0, (first, whole));
    }

    /// Puts all lists into rising page order, as mending leaves them.
    pub fn mend(&mut self) {
        self.runs.sort();
        self.lists.iter_mut().for_each(|list| list.sort());
    }

    /// Makes a pool of edition 1 one of edition 2.
    pub fn convert(&mut self) {
        self.edition = 2;
        self.peak = [0, 1, 2, 3, 4, 5, 6, 7, 8].map(|class| self.used(class));
    }

    /// The pages whose map lies in the page itself, and that map's bytes.
    pub fn maps_in_pages(&self) -> impl Iterator<Item = (usize, Vec<u8>)> + '_ {
        self.pages
            .iter()
            .enumerate()
            .filter_map(|(page, what)| match what {
                Page::Chunks {
                    class: 0..=2,
                    marks,
                } => {
                    let bytes = marks.chunks(8).map(|eight| {
                        eight
                            .iter()
                            .fold(0, |byte, mark| byte << 1 | u8::from(*mark))
                    });
                    Some((page, bytes.collect()))
                }
                _ => None,
            })
    }

    /// Header, class records and page records, byte for byte.
    pub fn records(&self) -> Vec<u8> {
        let free: usize = self.runs.iter().map(|run| run.1).sum();
        let first = self.runs.first().map_or(NONE, |run| run.0);
        let header =
            0x3C << 48 | (self.pages.len() as u64) << 32 | (free as u64) << 16 | first as u64;
        let mut bytes = header.to_be_bytes().to_vec();
        bytes[0] = self.edition;

        let mut total = [0; 9];
        for page in &self.pages {
            if let Page::Chunks { class, .. } = page {
                total[*class] += CHUNKS[*class] - OWN[*class];
            }
        }
        for (class, total) in total.into_iter().enumerate() {
            let first = self.lists[class].first().map_or(NONE, |page| *page);
            let record = (first as u128) << 112
                | (self.used(class) as u128) << 88
                | (total as u128) << 64
                | (self.reqs[class] as u128) << 32
                | self.fails[class] as u128;
            bytes.extend(record.to_be_bytes());
            if self.edition == 2 {
                bytes.extend(((self.peak[class] as u64) << 40).to_be_bytes());
            }
        }

        let record = |map: u64, kind: u128, class: usize, run: usize, next: usize, back: usize| {
            (map as u128) << 64
                | kind << 61
                | (class as u128) << 57
                | (run as u128) << 41
                | (next as u128) << 25
                | (back as u128) << 9
        };
        let mut pages: Vec<u128> = self
            .pages
            .iter()
            .map(|page| match page {
                Page::Free => record(0, 0, 0, 0, NONE, NONE),
                Page::TakenFirst(length) => record(0, 3, 0, *length, NONE, NONE),
                Page::TakenInside => record(0, 4, 0, 0, NONE, NONE),
                Page::Chunks { class, marks } => {
                    let mut map = 0;
                    if *class > 2 {
                        for (chunk, _) in marks.iter().enumerate().filter(|(_, mark)| **mark) {
                            map |= 1 << 63 >> chunk;
                        }
                    }
                    record(map, 2, *class, 0, NONE, NONE)
                }
            })
            .collect();
        let link = |pages: &mut [u128], list: &[usize]| {
            for (place, page) in list.iter().enumerate() {
                let next = list.get(place + 1).map_or(NONE, |next| *next) as u128;
                let back = if place == 0 { NONE } else { list[place - 1] } as u128;
                let others = !(0xFFFF_u128 << 25 | 0xFFFF << 9);
                pages[*page] = pages[*page] & others | next << 25 | back << 9;
            }
        };
        for (first, length) in &self.runs {
            if *length > 1 {
                pages[first + length - 1] = record(0, 0, 0, 0, NONE, *first);
            }
            pages[*first] = record(0, 1, 0, *length, NONE, NONE);
        }
        let firsts: Vec<usize> = self.runs.iter().map(|run| run.0).collect();
        link(&mut pages, &firsts);
        for list in &self.lists {
            link(&mut pages, list);
        }
        for page in pages {
            bytes.extend(page.to_be_bytes());
        }
        bytes
    }
}
