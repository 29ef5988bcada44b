//! The tour of the README: every line is run, and prints what stands there.

mod common;

use common::Folder;

const README: &str = include_str!("../../../README.md");

#[test]
fn the_tour() {
    let (_, tour) = README.split_once("```console\n").expect("a tour");
    let (tour, _) = tour.split_once("```\n").expect("its end");
    let folder = Folder::new("readme");
    let mut printed = String::new();
    for line in tour.lines().filter_map(|line| line.strip_prefix("$ ")) {
        let ran = folder.shell(line);
        printed += &format!("$ {line}\n{}{}", ran.out, ran.err);
    }
    assert_eq!(printed, tour);
}
