//! A call in a process of its own, instruction by instruction.

use std::fs::{self, OpenOptions};
use std::hint::black_box;
use std::io::{self, Write};
use std::{env, process};

use crate::sys::{Child, Mapping, State};

/// Where the child stands, told in the mapping's first byte.
const BEFORE: u8 = 0;
const INSIDE: u8 = 1;
const AFTER: u8 = 2;
/// Where the pool lies in the mapping.
const POOL: usize = 4_096;

/// An image of the pool, and after how many instructions it was found.
pub struct Image {
    /// The pool's bytes.
    pub bytes: Vec<u8>,
    /// Instructions after which these stood there.
    pub stops: usize,
}

/// Makes a call on a copy of the pool in a mapped file, and answers the images
/// that stood there, in order, from the call's first instruction to its last.
pub fn stops(pool: &[u8], call: impl Fn(&mut [u8])) -> io::Result<Vec<Image>> {
    let mut mapping = mapped(pool)?;
    let child = Child::stopped(|| {
        let (flag, pool) = mapping.bytes_mut().split_at_mut(POOL);
        *black_box(&mut flag[0]) = INSIDE;
        call(black_box(pool));
        *black_box(&mut flag[0]) = AFTER;
    })?;
    let mut images: Vec<Image> = Vec::new();
    while child.step()? == State::Stopped {
        let (flag, pool) = black_box(mapping.bytes()).split_at(POOL);
        match (flag[0], images.last_mut()) {
            (BEFORE, _) => {}
            (INSIDE, Some(last)) if last.bytes == pool => last.stops += 1,
            (INSIDE, _) => images.push(Image {
                bytes: pool.to_vec(),
                stops: 1,
            }),
            _ => {
                child.finish()?;
                break;
            }
        }
    }
    Ok(images)
}

/// A file that has no name any more, with a byte for the flag and the pool.
fn mapped(pool: &[u8]) -> io::Result<Mapping> {
    let path = env::temp_dir().join(format!("drill-{}", process::id()));
    let mut file = OpenOptions::new()
        .read(true)
        .write(true)
        .create_new(true)
        .open(&path)?;
    fs::remove_file(&path)?;
    file.write_all(&[BEFORE; POOL])?;
    file.write_all(pool)?;
    Mapping::of(&file)
}
