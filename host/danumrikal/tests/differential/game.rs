//! A game: two programs, a pool for each, and the live blocks, which calls and
//! answers alone tell. Every turn is held against all that the rules say of it.

use std::collections::HashMap;
use std::ops::Range;
use std::{fmt, mem};

use reference::layout::{set_word, word, ClassRecord, Header, PageNo, PageRecord};
use reference::{
    live_blocks, need, peaks, shown, Call, Class, Layout, LiveSet, Need, Peaks, View, CLASSES,
};
use support::{Edition, Rng, HEADER, RECORD, TWO};

use crate::case::{Case, Setting, Turn};
use crate::program::Program;

/// Bytes on each side of a pool that no call may touch.
const GUARD: usize = 16;

/// What came of a turn in which nothing was found wrong.
#[derive(Clone, Copy, Debug, PartialEq, Eq)]
pub enum Event {
    Allocated(u32),
    /// The bytes released.
    Freed(u32),
    Refused(u8),
    /// Damaged: the first broken rule, or 0.
    Broken(u8),
    /// The page count.
    Mended(u32),
    Nothing,
}

impl fmt::Display for Event {
    fn fmt(&self, f: &mut fmt::Formatter<'_>) -> fmt::Result {
        match self {
            Event::Allocated(offset) => write!(f, "at {offset}"),
            Event::Freed(bytes) => write!(f, "back {bytes}"),
            Event::Refused(number) => write!(f, "refused with {number}"),
            Event::Broken(rule) => write!(f, "broken rule {rule}"),
            Event::Mended(pages) => write!(f, "mended, pages {pages}"),
            Event::Nothing => f.write_str("nothing"),
        }
    }
}

/// What was found wrong.
pub type Wrong = String;

pub struct Game {
    programs: [Program; 2],
    setting: Setting,
    /// Each program's pool between its guards.
    bytes: [Vec<u8>; 2],
    /// The first program's bytes before the call.
    before: Vec<u8>,
    /// Where the pool lies in the bytes.
    pool: Range<usize>,
    /// The live blocks; nobody knows them while the records are unsound.
    live: Option<LiveSet>,
    /// Those that mending must bring back, while the records are unsound and
    /// nothing was damaged that tells them.
    lost: Option<LiveSet>,
    /// What the live blocks made the pool show when they were last known.
    view: View,
    /// What they and those before made it show so in edition 2.
    peaks: Peaks,
    /// The blocks by the turn that took them.
    taken: HashMap<usize, u32>,
}

impl Game {
    pub fn new(programs: [Program; 2], setting: Setting) -> Result<Game, Wrong> {
        // Pools begin at any alignment.
        let start = GUARD + setting.seed as usize % 8;
        let length = setting.edition.length(setting.pages);
        let pool = start..start + length + setting.tail;
        let bytes = Rng::new(setting.seed).bytes(pool.end + GUARD);
        let live = LiveSet::new(setting.pages as u32);
        let mut game = Game {
            programs,
            setting,
            before: bytes.clone(),
            bytes: [bytes.clone(), bytes],
            pool,
            view: live.expected(),
            live: Some(live),
            lost: None,
            peaks: Peaks::new([0; CLASSES]),
            taken: HashMap::new(),
        };
        let pages = setting.pages as u32;
        let edition = setting.edition.number;
        let answers = game.on_both(|program, pool| (program.format)(pool, edition));
        if answers != [Ok(pages); 2] {
            return Err(format!("{answers:?}"));
        }
        game.bytes_are_alike()?;
        game.callers_bytes_are_kept(&game.view)?;
        game.pool_shows_the_view()?;
        Ok(game)
    }

    pub fn edition(&self) -> Edition {
        self.setting.edition
    }

    pub fn pages(&self) -> usize {
        self.setting.pages
    }

    /// Where the records lie, whatever became of the first byte.
    pub fn layout(&self) -> Layout {
        let layout = Layout::new(self.edition().number, self.pool.len());
        layout.expect("an edition, and a length that holds pages")
    }

    /// Whether the records are sound.
    pub fn is_sound(&self) -> bool {
        self.live.is_some()
    }

    /// The first program's pool.
    pub fn pool(&self) -> &[u8] {
        &self.bytes[0][self.pool.clone()]
    }

    /// The offset that the turn's free names, if it is one and names one.
    pub fn offset(&self, turn: Turn) -> Option<u32> {
        match turn {
            Turn::Free(offset) => Some(offset),
            Turn::FreeOf(number) => self.taken.get(&number).copied(),
            _ => None,
        }
    }

    /// Bytes of the map that lies in a page, as far as is known.
    pub fn map_bytes(&self, page: usize) -> usize {
        map_bytes(self.view.classes[page])
    }

    /// Plays a turn on both pools.
    pub fn play(&mut self, number: usize, turn: Turn) -> Result<Event, Wrong> {
        match turn {
            Turn::Damage { at, bits } => self.damage(at, bits),
            Turn::Mend => self.mend(number),
            Turn::Alloc(size) => {
                let event = self.call(number, Call::Alloc(size))?;
                if let Event::Allocated(offset) = event {
                    self.taken.insert(number, offset);
                }
                Ok(event)
            }
            Turn::Free(_) | Turn::FreeOf(_) => match self.offset(turn) {
                Some(offset) => self.call(number, Call::Free(offset)),
                None => Ok(Event::Nothing),
            },
        }
    }

    fn on_both<T>(&mut self, act: impl Fn(&Program, &mut [u8]) -> T) -> [T; 2] {
        let pool = self.pool.clone();
        let [left, right] = &mut self.bytes;
        [
            act(&self.programs[0], &mut left[pool.clone()]),
            act(&self.programs[1], &mut right[pool]),
        ]
    }

    fn damage(&mut self, at: usize, bits: u64) -> Result<Event, Wrong> {
        let rules = self.on_both(|program, pool| {
            let old = word(pool, at);
            set_word(pool, at, old ^ bits);
            (program.broken_rule)(pool)
        });
        self.alike(rules.map(Event::Broken))?;
        let known = self.live.take().or(self.lost.take());
        self.lost = known.filter(|_| !self.tells_blocks(at, bits));
        // After damage a sound pool is read by itself: no call told of it.
        if let Some(live) = live_set(self.pool()) {
            self.read_anew(live)?;
        }
        Ok(Event::Broken(rules[0]))
    }

    /// Whether live blocks depend on bits of the word at a byte.
    fn tells_blocks(&self, at: usize, bits: u64) -> bool {
        let (head, first) = (
            self.edition().head(),
            self.edition().page_at(self.pages(), 0),
        );
        match at {
            // All but the free pages and the first free run.
            0 => bits >> 32 != 0,
            _ if at < head => false,
            // All but links and zero bits, in the second word.
            _ if at < first && (at - head) % RECORD == 8 => bits >> 41 != 0,
            _ => true,
        }
    }

    /// Goes on with the live blocks and peaks of a sound pool, which are those
    /// of before where these are known.
    fn read_anew(&mut self, live: LiveSet) -> Result<(), Wrong> {
        if self.lost.take().is_some_and(|lost| lost != live) {
            return Err("the pool shows other live blocks than before the damage".into());
        }
        self.view = live.expected();
        self.live = Some(live);
        self.peaks = Peaks::new(peaks(self.pool()).unwrap_or_default());
        self.pool_shows_the_view()
    }

    /// Mends both pools into other slices, and goes on in these.
    fn mend(&mut self, number: usize) -> Result<Event, Wrong> {
        let blank = self.rng(number).bytes(self.before.len());
        let mut copies = [blank.clone(), blank.clone()];
        let mut events = [Event::Nothing; 2];
        for (side, event) in events.iter_mut().enumerate() {
            let damaged = &self.bytes[side][self.pool.clone()];
            let target = &mut copies[side][self.pool.clone()];
            let answer = (self.programs[side].mend)(damaged, target);
            *event = answer.map_or_else(Event::Refused, Event::Mended);
        }
        self.alike(events)?;
        let all = 0..blank.len();
        self.same(&copies[0], &copies[1], all.clone(), "the copies differ")?;
        let known = self.live.is_some() || self.lost.is_some();
        match events[0] {
            Event::Mended(pages) if pages as usize == self.pages() => {
                for outside in [0..self.pool.start, self.pool.end..blank.len()] {
                    self.same(&blank, &copies[0], outside, "the call wrote")?;
                }
                self.go_on_with(copies)?;
            }
            Event::Refused(13) if !known => {
                self.same(&blank, &copies[0], all, "a refused call changed the target")?;
            }
            event => return Err(format!("{event}, though the live blocks are told")),
        }
        Ok(events[0])
    }

    /// The copies are accepted and sound, and hold what the damaged pools did.
    fn go_on_with(&mut self, copies: [Vec<u8>; 2]) -> Result<(), Wrong> {
        let damaged = mem::replace(&mut self.bytes, copies);
        for (program, (old, new)) in self.programs.iter().zip(damaged.iter().zip(&self.bytes)) {
            let pool = self.pool.clone();
            let number = (program.check_mended)(&old[pool.clone()], &new[pool]);
            if number != 0 {
                return Err(format!("{} refuses its copy with {number}", program.name));
            }
        }
        let first = self.pool.start + self.edition().page_at(self.pages(), 0);
        let what = "bytes that no call writes changed";
        self.same(&damaged[0], &self.bytes[0], first..self.pool.end, what)?;
        let live = live_set(self.pool()).ok_or("the copy is unsound")?;
        self.lost = self.live.take().or(self.lost.take());
        self.read_anew(live)?;
        self.history_is_kept(&damaged[0][self.pool.clone()])?;
        self.lists_rise()
    }

    /// Asks and failures are the damaged pool's, and so are peaks that are not
    /// below used.
    fn history_is_kept(&self, damaged: &[u8]) -> Result<(), Wrong> {
        let record = |pool, class| ClassRecord::read(pool, self.layout(), class);
        for class in Class::all() {
            let (old, new) = (record(damaged, class), record(self.pool(), class));
            if (old.reqs, old.fails) != (new.reqs, new.fails) {
                return Err("the copy has other asks or failures".into());
            }
            let peak = old.peak.map(|peak| peak.most.max(new.used));
            if new.peak.map(|peak| peak.most) != peak {
                return Err("the copy has another peak".into());
            }
        }
        Ok(())
    }

    /// Each list of a sound pool is in rising page order.
    fn lists_rise(&self) -> Result<(), Wrong> {
        let (pool, layout) = (self.pool(), self.layout());
        let classes = Class::all().map(|class| ClassRecord::read(pool, layout, class).first);
        for mut page in classes.chain([Header::read(pool).first]) {
            while page != PageNo::NONE {
                let next = PageRecord::read(pool, layout, page).next;
                if next.0 <= page.0 {
                    return Err("the copy has a list that does not rise".into());
                }
                page = next;
            }
        }
        Ok(())
    }

    /// Makes a call and holds everything that it may and may not do against it.
    fn call(&mut self, number: usize, call: Call) -> Result<Event, Wrong> {
        // Where the records are unsound nobody knows which bytes are callers'.
        if self.setting.scrambled && self.is_sound() {
            self.scramble(number);
        }
        self.before.copy_from_slice(&self.bytes[0]);
        let events = self.on_both(|program, pool| match call {
            Call::Alloc(size) => (program.alloc)(pool, size).map(Event::Allocated),
            Call::Free(offset) => (program.free)(pool, offset).map(Event::Freed),
        });
        let events = events.map(|event| event.unwrap_or_else(Event::Refused));
        self.alike(events)?;
        self.bytes_are_alike()?;
        let event = events[0];
        if let Event::Refused(refusal) = event {
            self.only_tallies_changed(call, refusal)?;
        }
        match self.live.take() {
            Some(live) => self.hold_against(live, call, event)?,
            None if event != Event::Refused(3) => {
                return Err(format!("{event}, though the records are unsound"))
            }
            None => {}
        }
        Ok(event)
    }

    /// The numbers of a turn.
    fn rng(&self, number: usize) -> Rng {
        Rng::new(self.setting.seed.wrapping_mul(1_000_003) + number as u64)
    }

    /// Changes bytes that callers may change between calls: those of a few
    /// pages, so that large pools stay quick, and at times of many.
    fn scramble(&mut self, number: usize) {
        let pages = self.setting.pages;
        let mut rng = self.rng(number);
        let count = if rng.once_in(50) { pages } else { 2 };
        let edition = self.edition();
        let tail = edition.length(pages)..self.pool.len();
        let places = (0..count).map(|_| {
            let page = rng.below(pages as u64) as usize;
            edition.callers_bytes(pages, page, self.map_bytes(page))
        });
        let ranges: Vec<_> = places.chain([tail]).collect();
        let [left, right] = &mut self.bytes;
        let (left, right) = (&mut left[self.pool.clone()], &mut right[self.pool.clone()]);
        for range in ranges {
            rng.fill(&mut left[range.clone()]);
            right[range.clone()].copy_from_slice(&left[range]);
        }
    }

    /// The call was ruled, and the pool shows, what the live blocks say.
    fn hold_against(&mut self, mut live: LiveSet, call: Call, event: Event) -> Result<(), Wrong> {
        let ruling = live.ruling(call).err().map(|refusal| refusal.number());
        let refused = match event {
            Event::Refused(number) => Some(number),
            _ => None,
        };
        if refused != ruling {
            let due = ruling.map_or("a grant".into(), |number| {
                Event::Refused(number).to_string()
            });
            return Err(format!("{event}, where the live blocks say {due}"));
        }
        let entered = match (call, event) {
            (Call::Alloc(size), Event::Allocated(offset)) => live.record_alloc(size, Ok(offset)),
            (Call::Free(offset), Event::Freed(bytes)) => live.record_free(offset, Ok(bytes)),
            _ => Ok(()),
        };
        entered.map_err(|wrong| format!("{event}: {wrong}"))?;
        let view = live.expected();
        self.callers_bytes_are_kept(&view)?;
        self.view = view;
        self.peaks.note(&live);
        self.live = Some(live);
        self.pool_shows_the_view()
    }

    fn alike(&self, events: [Event; 2]) -> Result<(), Wrong> {
        let [left, right] = events;
        if left == right {
            return Ok(());
        }
        let [ours, theirs] = self.programs.map(|program| program.name);
        Err(format!("{ours}: {left}; {theirs}: {right}"))
    }

    fn bytes_are_alike(&self) -> Result<(), Wrong> {
        let [left, right] = &self.bytes;
        self.same(left, right, 0..left.len(), "the pools differ")
    }

    /// A refused call changes nothing but the tallies of a refused chunk.
    fn only_tallies_changed(&mut self, call: Call, refusal: u8) -> Result<(), Wrong> {
        if let (Call::Alloc(size), 4) = (call, refusal) {
            if let Ok(Need::Chunk(class)) = need(size) {
                let layout = self.layout();
                let pool = &mut self.before[self.pool.clone()];
                let mut record = ClassRecord::read(pool, layout, class);
                record.reqs = record.reqs.saturating_add(1);
                record.fails = record.fails.saturating_add(1);
                record.write(pool, layout, class);
            }
        }
        self.same(
            &self.before,
            &self.bytes[0],
            0..self.before.len(),
            "a refused call changed the pool",
        )
    }

    /// Nothing but header, records and maps changed; the maps are those of
    /// the view before the call and of the one after it.
    fn callers_bytes_are_kept(&self, after: &View) -> Result<(), Wrong> {
        let pages = self.setting.pages;
        let start = self.pool.start;
        let inside = (0..pages).map(|page| {
            let map = self.map_bytes(page).max(map_bytes(after.classes[page]));
            let bytes = self.edition().callers_bytes(pages, page, map);
            start + bytes.start..start + bytes.end
        });
        let tail = start + self.edition().length(pages);
        let outside = [0..start, tail..self.before.len()];
        inside.chain(outside).try_for_each(|range| {
            self.same(
                &self.before,
                &self.bytes[0],
                range,
                "bytes that no call writes changed",
            )
        })
    }

    /// The records are sound, the five that they show are the view's, and in
    /// edition 2 the peaks are the largest used so far.
    fn pool_shows_the_view(&self) -> Result<(), Wrong> {
        for (program, bytes) in self.programs.iter().zip(&self.bytes) {
            let rule = (program.broken_rule)(&bytes[self.pool.clone()]);
            if rule != 0 {
                return Err(format!("broken rule {rule}, says {}", program.name));
            }
        }
        let shown = shown(self.pool()).ok_or("edition and length hold no pool")?;
        if shown == self.view {
            return self.pool_shows_the_peaks();
        }
        let view = &self.view;
        let parts = [
            ("free runs", shown.free_runs != view.free_runs),
            ("class pages", shown.classes != view.classes),
            ("maps", shown.bitmaps != view.bitmaps),
            ("used", shown.used != view.used),
            ("total", shown.total != view.total),
        ];
        let wrong: Vec<_> = parts
            .iter()
            .filter(|part| part.1)
            .map(|part| part.0)
            .collect();
        let wrong = wrong.join(", ");
        Err(format!(
            "the pool shows other {wrong} than the live blocks say"
        ))
    }

    fn pool_shows_the_peaks(&self) -> Result<(), Wrong> {
        let due = (self.edition() == TWO).then(|| self.peaks.by_class());
        if peaks(self.pool()) == due {
            Ok(())
        } else {
            Err("the pool shows other peaks than the live blocks had".into())
        }
    }

    fn same(
        &self,
        left: &[u8],
        right: &[u8],
        range: Range<usize>,
        what: &str,
    ) -> Result<(), Wrong> {
        let (left, right) = (&left[range.clone()], &right[range.clone()]);
        if left == right {
            return Ok(());
        }
        let mut pairs = left.iter().zip(right);
        let first = pairs.position(|(left, right)| left != right);
        let place = self.place(range.start + first.unwrap_or(0));
        Err(format!("{what} at {place}"))
    }

    /// A byte's place in words.
    fn place(&self, at: usize) -> String {
        let pages = self.setting.pages;
        let Some(byte) = at.checked_sub(self.pool.start) else {
            return "a byte before the pool".into();
        };
        let edition = self.edition();
        let (head, first) = (edition.head(), edition.page_at(pages, 0));
        match byte {
            0..HEADER => format!("byte {byte} of the header"),
            _ if byte < head => format!(
                "byte {} of class record {}",
                (byte - HEADER) % edition.class_record,
                (byte - HEADER) / edition.class_record
            ),
            _ if byte < first => {
                format!(
                    "byte {} of page record {}",
                    (byte - head) % RECORD,
                    (byte - head) / RECORD
                )
            }
            _ if byte < edition.length(pages) => format!("offset {}", byte - first),
            _ if at < self.pool.end => "a byte of the tail".into(),
            _ => "a byte behind the pool".into(),
        }
    }
}

/// The live blocks of a sound pool read by itself.
fn live_set(pool: &[u8]) -> Option<LiveSet> {
    let mut live = LiveSet::new(Layout::of(pool).ok()?.pages);
    for (offset, block) in live_blocks(pool)? {
        let entered = live.record_alloc(block.bytes() as u32, Ok(offset));
        entered.expect("blocks of a sound pool are apart");
    }
    Some(live)
}

fn map_bytes(class: Option<Class>) -> usize {
    class
        .filter(|class| class.bitmap_in_page())
        .map_or(0, |class| 8 * class.bitmap_words())
}

/// A call or damage, and what came of it, in words.
pub type Line = (String, String);

/// Plays a case; where something is found wrong in it, the turns up to there.
pub fn replay(programs: [Program; 2], case: &Case) -> Result<(), Vec<Line>> {
    let game = Game::new(programs, case.setting);
    let mut game = game.map_err(|wrong| vec![("format".into(), wrong)])?;
    let mut lines = Vec::new();
    for &(number, turn) in &case.turns {
        let name = match (turn, game.offset(turn)) {
            (Turn::Alloc(size), _) => format!("alloc {size}"),
            (Turn::Damage { at, bits }, _) => {
                format!(
                    "damage from {} on, {bits:#018x}",
                    game.place(game.pool.start + at)
                )
            }
            (Turn::Mend, _) => "mend".into(),
            (_, Some(offset)) => format!("free {offset}"),
            (_, None) => "free of no block".into(),
        };
        match game.play(number, turn) {
            Ok(event) => lines.push((name, event.to_string())),
            Err(wrong) => {
                lines.push((name, wrong));
                return Err(lines);
            }
        }
    }
    Ok(())
}
