//! Nanoseconds a request, of 100,000 mixed allocs and frees: the proved calls,
//! and what they are measured by.

use danumrikal::{Offset, Pool, Refusal};
use support::{best_in_turn, requests, serve, ONE};
use yardstick::{native, packed};

const REQUESTS: usize = 100_000;
const ROUNDS: usize = 15;

/// Serves the requests on a pool of bytes with these functions.
fn on_bytes<'a, E>(
    list: &'a [u64],
    pages: u16,
    alloc: impl Fn(&mut [u8], u32) -> Result<u32, E> + 'a,
    free: impl Fn(&mut [u8], u32) -> Result<u32, E> + 'a,
    number: impl Fn(E) -> u8 + 'a,
) -> impl FnMut() -> u64 + 'a {
    let mut pool = vec![0; ONE.length(usize::from(pages))];
    move || {
        packed::format(&mut pool).expect("a length that holds pages");
        serve(list, pool.as_mut_slice(), &alloc, &free, &number)
    }
}

fn main() {
    println!("        validated at each call    on sound records");
    println!("pages   proved  packed  second    packed  native    proved/packed");
    for pages in [12, 256] {
        let new = || native::Pool::new(pages);
        let (alloc, free) = (native::Pool::alloc, native::Pool::free);
        let list = &requests(REQUESTS, &mut new(), alloc, free);

        let mut proved = on_bytes(
            list,
            pages,
            |pool, size| Pool::new(pool).alloc(size).map(|offset| offset.0),
            |pool, offset| Pool::new(pool).free(Offset(offset)),
            Refusal::number,
        );
        let number = reference::Refusal::number;
        let mut packed = on_bytes(list, pages, packed::alloc, packed::free, number);
        let mut second = on_bytes(list, pages, reference::alloc, reference::free, number);
        let mut sound = on_bytes(list, pages, packed::alloc_sound, packed::free_sound, number);
        let mut native = || serve(list, &mut new(), alloc, free, number);

        let best = best_in_turn(
            ROUNDS,
            [
                &mut proved,
                &mut packed,
                &mut second,
                &mut sound,
                &mut native,
            ],
        );
        let [proved, packed, second, sound, native] = best.map(|time| time / REQUESTS as f64);
        println!(
            "{pages:5}  {proved:7.1} {packed:7.1} {second:7.1}   {sound:7.1} {native:7.1}    {:13.2}",
            proved / packed
        );
    }
}
