//! The allocator on structs of its own, with no packing and no validation.
//!
//! As in nginx, lists are rings through a node that heads them, so that linking
//! needs no case for an end. Node numbers stand for nginx's pointers.

mod chunks;
mod runs;

use crate::class::{class_of, takes_chunk, CLASSES};
use crate::{words, Refusal};

/// What a page is.
#[derive(Clone, Copy, PartialEq, Eq)]
enum Kind {
    Free,
    Class,
    TakenFirst,
    TakenInside,
}

/// A page, or the head of a list.
#[derive(Clone, Copy)]
struct Node {
    /// Marks of the chunks, for classes that keep them here.
    map: u64,
    /// Pages of the run, in its first page; 0 inside a free run.
    run: u16,
    next: u16,
    /// In the last page of a free run also its first page.
    previous: u16,
    kind: Kind,
    class: u8,
}

/// A class's counts.
#[derive(Clone, Copy, Default)]
struct Counts {
    used: u32,
    total: u32,
    asks: u32,
    failures: u32,
}

/// Pages of the largest pool.
const MOST_PAGES: usize = 4_096;
/// Nodes from this one on head the class lists, and one the free runs.
const HEADS: u16 = MOST_PAGES as u16;
const FREE_RUNS: u16 = HEADS + CLASSES as u16;
/// A power of two, so that a mask keeps every number inside.
const NODES: usize = 2 * MOST_PAGES;

/// A pool of pages without bytes: only its records.
pub struct Pool {
    pages: u16,
    free_pages: u16,
    nodes: Box<[Node; NODES]>,
    /// Maps of the classes that nginx keeps in the page.
    maps: Box<[[u64; 8]; MOST_PAGES]>,
    classes: [Counts; CLASSES],
}

impl Pool {
    /// A pool with one free run of 1 to 4,096 pages.
    pub fn new(pages: u16) -> Pool {
        assert!((1..=HEADS).contains(&pages), "1 to 4,096 pages");
        let node = |number| Node {
            map: 0,
            run: 0,
            next: number as u16,
            previous: number as u16,
            kind: Kind::Free,
            class: 0,
        };
        let mut pool = Pool {
            pages,
            free_pages: 0,
            nodes: Box::new(std::array::from_fn(node)),
            maps: Box::new([[0; 8]; MOST_PAGES]),
            classes: [Counts::default(); CLASSES],
        };
        pool.release(0, pages);
        pool
    }

    /// Takes a block of at least `size` bytes and answers its offset.
    #[inline(always)]
    pub fn alloc(&mut self, size: u32) -> Result<u32, Refusal> {
        if takes_chunk(size) {
            self.alloc_chunk(class_of(size))
        } else {
            self.alloc_run(size)
        }
    }

    /// Gives back the block that begins at `offset`, and answers the bytes
    /// released.
    #[inline(always)]
    pub fn free(&mut self, offset: u32) -> Result<u32, Refusal> {
        if offset >> 12 >= u32::from(self.pages) {
            return Err(Refusal::Outside);
        }
        let page = (offset >> 12) as u16;
        let within = offset % 4_096;
        let node = self.node(page);
        match node.kind {
            Kind::Class => self.free_chunk(page, within),
            Kind::Free => Err(Refusal::NotTaken),
            Kind::TakenFirst if within == 0 => {
                let run = node.run;
                self.release(page, run);
                Ok(u32::from(run) << 12)
            }
            Kind::TakenFirst | Kind::TakenInside => Err(Refusal::NotAStart),
        }
    }

    /// Serves request words, with a word for each answer.
    pub fn batch(&mut self, requests: &[u64], answers: &mut [u64]) -> Result<(), Refusal> {
        if answers.len() < requests.len() {
            return Err(Refusal::AnswersTooShort);
        }
        words::serve(self, requests, answers, Pool::alloc, Pool::free);
        Ok(())
    }

    #[inline]
    fn node(&mut self, number: u16) -> &mut Node {
        &mut self.nodes[usize::from(number) % NODES]
    }

    /// Puts a node at the front of a list.
    #[inline]
    fn link_first(&mut self, head: u16, number: u16) {
        let next = std::mem::replace(&mut self.node(head).next, number);
        self.node(next).previous = number;
        let node = self.node(number);
        (node.next, node.previous) = (next, head);
    }

    /// Takes a node off its list.
    #[inline]
    fn unlink(&mut self, number: u16) {
        let Node { next, previous, .. } = *self.node(number);
        self.node(previous).next = next;
        self.node(next).previous = previous;
    }
}
