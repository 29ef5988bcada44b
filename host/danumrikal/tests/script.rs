//! The proved script programs, over the packed pool and over the plain
//! engine, run as a user runs them: stated cases, and the second program's
//! printout for scripts that look random.

use std::io::Write;
use std::path::Path;
use std::process::{Command, Stdio};
use std::thread;

use reference::{alloc, format, free, run_script};
use support::{offset, Habit, Rng, ONE, UNREADABLE};

/// What both programs print for an input: the same.
fn program(input: &[u8]) -> Vec<u8> {
    let printed = run("pool_main", input);
    assert!(
        run("plain_main", input) == printed,
        "the plain engine prints something else for\n{}",
        String::from_utf8_lossy(input)
    );
    printed
}

/// Runs a program on an input and answers what it printed.
fn run(name: &str, input: &[u8]) -> Vec<u8> {
    let path = Path::new(env!("CARGO_MANIFEST_DIR"))
        .join("../../crates")
        .join(name)
        .join("out")
        .join(name);
    assert!(
        path.exists(),
        "{} is missing: run `rt run` in crates/{name}",
        path.display()
    );
    let mut child = Command::new(path)
        .stdin(Stdio::piped())
        .stdout(Stdio::piped())
        .spawn()
        .expect("the program starts");
    let mut stdin = child.stdin.take().expect("a pipe");
    let input = input.to_vec();
    // a script that is too long is not read to its end, and the pipe then breaks
    let feeder = thread::spawn(move || stdin.write_all(&input).is_ok());
    let output = child.wait_with_output().expect("the program ends");
    feeder.join().expect("the input was offered");
    assert!(output.status.success(), "{}", output.status);
    output.stdout
}

fn prints(input: &str, printout: &str) {
    let printed = program(input.as_bytes());
    assert_eq!(String::from_utf8_lossy(&printed), printout, "{input:?}");
    assert_eq!(run_script(input.as_bytes()), printed, "{input:?}");
}

/// What a fresh pool prints around the lines for a script that leaves it whole.
fn around(lines: &str) -> String {
    format!("pool 12\n{lines}free 12 runs 1\n")
}

#[test]
fn the_whole_case() {
    prints(
        "take 30\ntake 64\ntake 5000\ngive 32\ngive 32\ntake 0\n",
        "pool 12\nat 32\nat 4096\nat 8192\nback 32\nno 6\nno 10\nfree 9 runs 2\n",
    );
}

#[test]
fn lines_end_in_newlines_and_the_last_may_lack_it() {
    prints("", &around(""));
    prints("\n", &around("no 8\n"));
    prints("\n\n", &around("no 8\nno 8\n"));
    prints("give 0", &around("no 6\n"));
    prints("give 0\n", &around("no 6\n"));
    prints("give 0\n\ngive 0", &around("no 6\nno 8\nno 6\n"));
    prints("take 49152", "pool 12\nat 0\nfree 0 runs 0\n");
    prints("take 49153\ntake 4294967295", &around("no 4\nno 4\n"));
    prints("take 0\ntake 0", &around("no 10\nno 10\n"));
}

#[test]
fn whatever_is_not_of_the_form_is_unreadable() {
    for line in UNREADABLE {
        prints(line, &around("no 8\n"));
    }
}

#[test]
fn a_refused_line_leaves_the_next_to_be_served() {
    prints(
        "take 4096\nhallo\ngive 1\ngive 4096\ngive 49152\ngive 0\ngive 0\n",
        "pool 12\nat 0\nno 8\nno 7\nno 6\nno 5\nback 4096\nno 6\nfree 12 runs 1\n",
    );
}

#[test]
fn the_longest_script_and_one_byte_more() {
    let longest = "\n".repeat(12_288);
    prints(&longest, &around(&"no 8\n".repeat(12_288)));
    prints(&format!("{longest}\n"), "no 9\n");
    prints(&"take 8\n".repeat(100_000), "no 9\n");
    prints(&"x".repeat(12_288), &around("no 8\n"));
    prints(&"x".repeat(12_289), "no 9\n");
    // pages of class 8 are full after 504 blocks; the largest offsets take five digits
    let script = "take 8\n".repeat(1_755);
    assert_eq!(program(script.as_bytes()), run_script(script.as_bytes()));
}

/// A line that is nearly a call's.
fn spoilt(rng: &mut Rng, line: &str) -> Vec<u8> {
    let mut bytes = line.as_bytes().to_vec();
    let at = rng.below(bytes.len() as u64) as usize;
    match rng.below(4) {
        0 => drop(bytes.remove(at)),
        1 => bytes[at] = rng.word() as u8,
        2 => bytes.insert(at, bytes[at]),
        _ => bytes.insert(at, rng.pick(b" 0\t\r\n+-")),
    }
    bytes
}

/// A script of a game: most lines take, or give back what was taken before, some of it twice.
fn script(seed: u64) -> Vec<u8> {
    let mut rng = Rng::new(seed);
    let habit = Habit::any(&mut rng);
    let mut pool = vec![0; ONE.length(12)];
    format(&mut pool, 1).expect("twelve pages");
    let mut taken: Vec<u32> = Vec::new();
    let mut script = Vec::new();
    for _ in 0..rng.below(900) {
        let line = if rng.below(16) < habit.allocs {
            let size = habit.size(&mut rng, 12);
            taken.extend(alloc(&mut pool, size));
            format!("take {size}")
        } else {
            let one = (!taken.is_empty()).then(|| rng.below(taken.len() as u64) as usize);
            let at = match one.filter(|_| !rng.once_in(8)) {
                Some(one) if rng.once_in(8) => taken[one],
                Some(one) => taken.swap_remove(one),
                None => offset(&mut rng, 12, taken.last().copied()),
            };
            let _ = free(&mut pool, at);
            format!("give {at}")
        };
        match rng.once_in(16) {
            true => script.extend(spoilt(&mut rng, &line)),
            false => script.extend(line.bytes()),
        }
        if !rng.once_in(200) {
            script.push(b'\n');
        }
    }
    script
}

#[test]
fn scripts_that_look_random_print_what_the_second_program_prints() {
    for seed in 0..300 {
        let script = script(seed);
        assert!(
            program(&script) == run_script(&script),
            "seed {seed}: the printouts differ for\n{}",
            String::from_utf8_lossy(&script)
        );
    }
}
