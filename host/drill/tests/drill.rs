//! The drill, as short as it can be: it is a measurement, and its figures are no
//! promise.

use std::process::Command;

#[test]
fn it_counts_every_stop_and_every_image() {
    let ran = Command::new(env!("CARGO_BIN_EXE_drill")).arg("1").output();
    let ran = ran.expect("the program starts");
    let err = String::from_utf8_lossy(&ran.stderr);
    if err.contains("the system does not let us") {
        eprintln!("not tried: {err}");
        return;
    }
    assert!(ran.status.success(), "{err}");
    let table = String::from_utf8_lossy(&ran.stdout);
    let rows: Vec<&str> = table.lines().skip(2).collect();
    assert_eq!(rows.len(), 8 * 2, "{table}");
    for row in rows {
        let cells: Vec<&str> = row.trim_matches('|').split('|').map(str::trim).collect();
        let [_, _, _, all, counts @ ..] = cells.as_slice() else {
            panic!("{row}");
        };
        let number = |text: &&str| text.parse::<usize>().expect("a number");
        let counts: Vec<usize> = counts.iter().map(number).collect();
        assert_eq!(number(all), counts.iter().sum(), "{row}");
        // every call begins and ends with a sound pool
        assert!(counts[0] >= 2, "{row}");
    }
}

#[test]
fn wrong_usage() {
    for words in [&["0"][..], &["many"], &["1", "2"]] {
        let ran = Command::new(env!("CARGO_BIN_EXE_drill"))
            .args(words)
            .output();
        assert_eq!(ran.expect("the program starts").status.code(), Some(2));
    }
}
