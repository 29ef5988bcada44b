//! Plays random games from seeds, and tells of the first that goes wrong.

use std::fmt;
use std::ops::AddAssign;

use reference::{need, Need};
use support::{Edition, Habit, Rng, ONE, PER_PAGE};

use crate::case::{Case, Setting, Turn};
use crate::damage::damage;
use crate::game::{replay, Event, Game, Line};
use crate::program::Program;
use crate::shrink::shrink;

/// How a game is played.
#[derive(Clone, Copy)]
pub struct Plan {
    pub seed: u64,
    pub edition: Edition,
    pub pages: usize,
    pub turns: usize,
    /// The habit from beginning to end; else it changes now and then.
    pub habit: Option<Habit>,
    /// Whether records and maps are damaged, and at times mended or healed.
    pub damaging: bool,
}

impl Plan {
    /// Any habits, nothing damaged, in edition 1.
    pub fn new(seed: u64, pages: usize, turns: usize) -> Plan {
        Plan {
            seed,
            edition: ONE,
            pages,
            turns,
            habit: None,
            damaging: false,
        }
    }
}

/// A case that goes wrong, as small as it got, and its turns in words.
pub struct Found {
    pub case: Case,
    pub lines: Vec<Line>,
}

impl Found {
    pub fn shrunk(programs: [Program; 2], case: Case) -> Found {
        let case = shrink(case, |case| replay(programs, case).is_err());
        let lines = replay(programs, &case).expect_err("a case that goes wrong");
        Found { case, lines }
    }
}

impl fmt::Display for Found {
    fn fmt(&self, f: &mut fmt::Formatter<'_>) -> fmt::Result {
        write!(f, "{}", self.case.setting)?;
        // Of many equal calls in a row the first and the last will do.
        for alike in self.lines.chunk_by(|left, right| left.0 == right.0) {
            let between = match alike.len() {
                0..6 => 0,
                count => count - 2,
            };
            for (place, (call, outcome)) in alike.iter().enumerate() {
                if place == 0 || place > between {
                    write!(f, "\n    {call}: {outcome}")?;
                } else if place == between {
                    write!(f, "\n    {call}, {between} times")?;
                }
            }
        }
        Ok(())
    }
}

/// How often what was seen.
#[derive(Clone, Copy, Default, Debug)]
pub struct Seen {
    /// Allocs and frees.
    pub calls: u64,
    /// By class, and runs last.
    pub allocated: [u64; 10],
    pub freed: u64,
    /// Refusals by number.
    pub refused: [u64; 14],
    /// First broken rules after damage, 0 for none.
    pub broken: [u64; 7],
    pub mended: u64,
}

impl Seen {
    fn note(&mut self, turn: Turn, event: Event) {
        match (turn, event) {
            (Turn::Alloc(size), Event::Allocated(_)) => {
                let place = match need(size).expect("a size that is served") {
                    Need::Chunk(class) => class.index(),
                    Need::Run(_) => 9,
                };
                self.allocated[place] += 1;
            }
            (_, Event::Freed(_)) => self.freed += 1,
            (_, Event::Refused(number)) => self.refused[usize::from(number)] += 1,
            (_, Event::Broken(rule)) => self.broken[usize::from(rule)] += 1,
            (_, Event::Mended(_)) => self.mended += 1,
            _ => {}
        }
        if matches!(turn, Turn::Alloc(_) | Turn::Free(_) | Turn::FreeOf(_)) {
            self.calls += u64::from(event != Event::Nothing);
        }
    }
}

impl AddAssign for Seen {
    fn add_assign(&mut self, other: Seen) {
        self.calls += other.calls;
        self.freed += other.freed;
        self.mended += other.mended;
        let sums = [&mut self.allocated[..], &mut self.refused, &mut self.broken];
        let counts = [&other.allocated[..], &other.refused, &other.broken];
        for (sum, count) in sums.into_iter().flatten().zip(counts.into_iter().flatten()) {
            *sum += count;
        }
    }
}

struct Player {
    rng: Rng,
    plan: Plan,
    habit: Habit,
    /// Turns whose block is likely live.
    live: Vec<usize>,
    last_freed: Option<usize>,
    /// Damage that comes next.
    planned: Vec<Turn>,
    /// Damage that is not healed; the same bits turned over once more heal it.
    damage: Vec<Turn>,
}

impl Player {
    fn turn(&mut self, game: &Game) -> Turn {
        let rng = &mut self.rng;
        if self.plan.habit.is_none() && rng.once_in(100) {
            self.habit = Habit::any(rng);
        }
        if self.plan.damaging && self.planned.is_empty() && rng.once_in(8) {
            self.planned = damage(rng, game);
        }
        if let Some(damage) = self.planned.pop() {
            self.damage.push(damage);
            return damage;
        }
        // Unsound pools only refuse, so damage is mended or healed after a few calls.
        if self.plan.damaging && rng.once_in(if self.damage.is_empty() { 50 } else { 6 }) {
            return Turn::Mend;
        }
        if rng.once_in(3) {
            if let Some(heal) = self.damage.pop() {
                return heal;
            }
        }
        if rng.below(16) < self.habit.allocs {
            return Turn::Alloc(self.habit.size(rng, self.plan.pages));
        }
        let some = (!self.live.is_empty()).then(|| rng.pick(&self.live));
        match (rng.below(10), some, self.last_freed) {
            (0..=6, Some(taken), _) => Turn::FreeOf(taken),
            (7, _, Some(freed)) => Turn::FreeOf(freed),
            _ => {
                let near = some.and_then(|taken| game.offset(Turn::FreeOf(taken)));
                Turn::Free(support::offset(rng, self.plan.pages, near))
            }
        }
    }

    fn note(&mut self, number: usize, turn: Turn, event: Event) {
        match (turn, event) {
            (Turn::Alloc(_), Event::Allocated(_)) => self.live.push(number),
            (Turn::FreeOf(taken), Event::Freed(_)) => {
                self.live.retain(|&turn| turn != taken);
                self.last_freed = Some(taken);
            }
            // Nothing to heal in a sound pool.
            (_, Event::Broken(0) | Event::Mended(_)) => self.damage.clear(),
            _ => {}
        }
    }
}

/// Plays a game to its end, at which everything is freed.
fn play(programs: [Program; 2], plan: Plan) -> Result<Seen, Case> {
    let mut rng = Rng::new(plan.seed);
    let setting = Setting {
        seed: plan.seed,
        edition: plan.edition,
        pages: plan.pages,
        tail: rng.below(PER_PAGE as u64) as usize,
        scrambled: true,
    };
    let mut case = Case {
        setting,
        turns: Vec::new(),
    };
    let Ok(mut game) = Game::new(programs, setting) else {
        return Err(case);
    };
    let mut seen = Seen::default();
    let mut player = Player {
        habit: plan.habit.unwrap_or_else(|| Habit::any(&mut rng)),
        rng,
        plan,
        live: Vec::new(),
        last_freed: None,
        planned: Vec::new(),
        damage: Vec::new(),
    };
    for number in 0.. {
        let turn = if number < plan.turns {
            player.turn(&game)
        } else if let Some(heal) = player.damage.pop() {
            heal
        } else if let Some(taken) = player.live.pop() {
            Turn::FreeOf(taken)
        } else {
            break;
        };
        case.turns.push((number, turn));
        let Ok(event) = game.play(number, turn) else {
            return Err(case);
        };
        player.note(number, turn, event);
        seen.note(turn, event);
    }
    Ok(seen)
}

/// Plays the games until one goes wrong.
pub fn play_all(
    programs: [Program; 2],
    plans: impl IntoIterator<Item = Plan>,
) -> Result<Seen, Found> {
    let mut sum = Seen::default();
    for plan in plans {
        match play(programs, plan) {
            Ok(seen) => sum += seen,
            Err(case) => return Err(Found::shrunk(programs, case)),
        }
    }
    Ok(sum)
}
