//! examples/README.md says what each job file prints. Here each is listed by the program and compared.

use station_tests::programs::listing;
use station_tests::{read, repository};
use std::fs;

/// The job files that the page has a heading for, each with the block of text under it.
fn told() -> Vec<(String, String)> {
    let page = read("examples/README.md");
    let mut told = Vec::new();
    for part in page.split("\n## ").skip(1) {
        let name = part.lines().next().unwrap_or("").to_string();
        let block = part
            .split("```\n")
            .nth(1)
            .expect("a block stands under each heading");
        told.push((name, block.to_string()));
    }
    told
}

#[test]
fn each_file_prints_what_the_page_says() {
    for (name, block) in told() {
        let path = repository().join("examples").join(&name);
        let file = fs::read(path).expect("the job file is there");
        assert_eq!(listing(&file), block, "{name}");
    }
}

#[test]
fn each_file_is_on_the_page() {
    let mut files: Vec<String> = fs::read_dir(repository().join("examples"))
        .expect("the folder is there")
        .map(|entry| {
            entry
                .expect("it can be read")
                .file_name()
                .into_string()
                .expect("names are text")
        })
        .filter(|name| name.ends_with(".job"))
        .collect();
    files.sort();
    let mut named: Vec<String> = told().into_iter().map(|(name, _)| name).collect();
    named.sort();
    assert_eq!(files, named);
}

/// The answers in what a job file prints, in order.
fn answers(block: &str) -> Vec<usize> {
    block
        .lines()
        .map(|line| line.split(' ').collect::<Vec<_>>())
        .filter(|fields| fields[0] != "v" && fields[0] != "job")
        .map(|fields| fields[1].parse().expect("the answer is a number"))
        .collect()
}

#[test]
fn the_table_tells_the_answers() {
    let page = read("examples/README.md");
    let rows: Vec<&str> = page
        .lines()
        .filter(|line| line.contains(".job |"))
        .collect();
    let wanted: Vec<(String, String)> = told()
        .iter()
        .map(|(name, block)| {
            let answers: Vec<String> = answers(block).iter().map(usize::to_string).collect();
            (name.clone(), answers.join(", "))
        })
        .collect();
    assert_eq!(rows.len(), wanted.len());
    for (row, (name, answers)) in rows.iter().zip(wanted) {
        let start = format!("| {name} | {answers} | ");
        assert!(row.starts_with(&start), "{row} does not start with {start}");
    }
}

/// host.c shows 2 and 15, and the job files each other number.
#[test]
fn each_number_is_shown() {
    let host = read("examples/host.out");
    let mut shown = [false; 16];
    for answer in [2, 15] {
        shown[answer] = host.contains(&format!(": answer {answer}\n"));
    }
    for (_, block) in told() {
        for answer in answers(&block) {
            shown[answer] = true;
        }
    }
    for (number, shown) in shown.iter().enumerate() {
        assert!(*shown, "no example shows {number}");
    }
}
