//! The report as JSON: one object, with the words of the lines as names.

use danumrikal::Rule;

use crate::class;
use crate::report::{ClassFacts, Facts};
use crate::view::Extent;

/// Of a sound pool.
pub fn report(facts: &Facts, blocks: bool) -> String {
    let classes = facts.classes.iter().map(class_object);
    let runs = facts.runs().map(|(kind, first, length)| {
        format!(r#"{{"kind": "{kind}", "first": {first}, "length": {length}}}"#)
    });
    let mut members = vec![
        r#""sound": true"#.to_owned(),
        format!(r#""edition": {}"#, facts.edition.number()),
        format!(r#""pages": {}"#, facts.pages),
        list("classes", classes),
        list("runs", runs),
    ];
    if blocks {
        let blocks = facts.blocks.iter().map(|block| {
            let offset = block.offset;
            match block.extent {
                Extent::Chunk(class) => {
                    format!(
                        r#"{{"offset": {offset}, "class": {}}}"#,
                        class::chunk(class)
                    )
                }
                Extent::Pages(pages) => format!(r#"{{"offset": {offset}, "pages": {pages}}}"#),
            }
        });
        members.push(list("blocks", blocks));
    }
    object(&members)
}

/// Of a pool that is not sound: the first rule that it breaks.
pub fn broken(rule: Rule) -> String {
    let (number, name) = (rule.number(), rule.name());
    let told = format!(r#""rule": {{"number": {number}, "name": "{name}"}}"#);
    object(&[r#""sound": false"#.to_owned(), told])
}

fn class_object(class: &ClassFacts) -> String {
    let ClassFacts {
        size,
        pages,
        used,
        total,
        asks,
        failures,
        peak,
    } = class;
    let peak = peak.map(|peak| format!(r#", "peak": {peak}"#));
    format!(
        r#"{{"size": {size}, "pages": {pages}, "used": {used}, "total": {total}, "asks": {asks}, "failures": {failures}{}}}"#,
        peak.unwrap_or_default()
    )
}

/// A member that is a list, an item a line.
fn list(name: &str, items: impl Iterator<Item = String>) -> String {
    let mut list = format!(r#""{name}": ["#);
    let mut between = "";
    for item in items {
        list += between;
        list += "\n    ";
        list += &item;
        between = ",";
    }
    if !between.is_empty() {
        list += "\n  ";
    }
    list + "]"
}

fn object(members: &[String]) -> String {
    format!("{{\n  {}\n}}\n", members.join(",\n  "))
}
