//! docs/TRACE.md is complete, and names nothing that is not there.

use station_tests::names::declares;
use station_tests::trace::{
    carried, demands, difference, holds_two, law, requests, sections, Carried, Row,
};
use station_tests::{read, repository, text_of};

fn rows() -> Vec<Row> {
    let sections = sections(&read("docs/TRACE.md")).unwrap_or_else(|e| panic!("{e}"));
    sections.into_iter().flat_map(|s| s.rows).collect()
}

#[test]
fn every_reference_exists() {
    let mut missing = Vec::new();
    for row in rows() {
        // a cell that cannot be read is for no_row_is_silent to tell
        let references = match carried(&row.carried_by) {
            Ok(Carried::By(references, _)) => references,
            _ => continue,
        };
        for to in references {
            if !repository().join(&to.path).is_file() {
                missing.push(format!("{}: there is no file {}", row.id, to.path));
            } else if let Some(name) = &to.name {
                let text = text_of(&to.path).unwrap_or_default();
                if !declares(&to.path, &text, name) {
                    missing.push(format!("{}: {} declares no {name}", row.id, to.path));
                }
            }
        }
    }
    assert!(missing.is_empty(), "\n{}", missing.join("\n"));
}

#[test]
fn every_sentence_is_there() {
    let mut parts = demands(&read("docs/DEMANDS.md"));
    assert_eq!(parts.len(), 3, "docs/DEMANDS.md has three demands");
    parts.extend(law(&read("docs/document-01.md")));
    let requests = requests(&read("docs/document-02.md"));
    assert_eq!(
        requests.len(),
        13,
        "docs/document-02.md has twelve requests"
    );
    parts.extend(requests);
    let sections = sections(&read("docs/TRACE.md")).unwrap_or_else(|e| panic!("{e}"));
    if let Some(place) = difference(&parts, &sections) {
        panic!("{place}");
    }
}

#[test]
fn a_row_is_one_sentence() {
    let two: Vec<String> = rows()
        .into_iter()
        .filter(|r| holds_two(&r.sentence))
        .map(|r| r.id)
        .collect();
    assert!(two.is_empty(), "more than one sentence: {two:?}");
}

/// A sentence that a request overrules is carried by a row of that request, which carries something.
#[test]
fn what_amends_is_carried() {
    let rows = rows();
    for row in &rows {
        if let Ok(Carried::AmendedBy(by)) = carried(&row.carried_by) {
            let found = rows.iter().find(|r| r.id == by);
            let carries = found.map(|r| carried(&r.carried_by));
            assert!(
                matches!(carries, Some(Ok(Carried::By(_, false)))),
                "{} is amended by {by}, which carries nothing",
                row.id
            );
        }
    }
}

#[test]
fn no_row_is_silent() {
    let (mut whole, mut part, mut open, mut nothing) = (0, 0, 0, 0);
    let mut silent = Vec::new();
    for row in rows() {
        match carried(&row.carried_by) {
            Ok(Carried::By(_, false) | Carried::AmendedBy(_)) => whole += 1,
            Ok(Carried::By(_, true)) => part += 1,
            Ok(Carried::Open) => open += 1,
            Ok(Carried::NothingToCarry(_)) => nothing += 1,
            Err(why) => silent.push(format!("{}: {why}", row.id)),
        }
    }
    println!(
        "TRACE: {whole} carried, {part} in part, {open} open, {nothing} with nothing to carry"
    );
    assert!(silent.is_empty(), "\n{}", silent.join("\n"));
}
