//! docs/DECISIONS.md has a table of its entries, which are numbered without a gap.

use station_tests::read;

/// The headings of the entries, `N. Title`.
fn headings(page: &str) -> Vec<String> {
    let found = page.lines().filter_map(|line| line.strip_prefix("## "));
    found.map(str::to_string).collect()
}

/// The rows of the table: number, title, and what the last column says.
fn rows(page: &str) -> Vec<[String; 3]> {
    let cells = |line: &str| {
        let inner = line.strip_prefix("| ")?.strip_suffix('|')?;
        let cells: Vec<String> = inner.split('|').map(|c| c.trim().to_string()).collect();
        <[String; 3]>::try_from(cells).ok()
    };
    let all = page.lines().filter_map(cells);
    all.filter(|row| row[0].parse::<usize>().is_ok()).collect()
}

#[test]
fn the_table_has_every_entry() {
    let page = read("docs/DECISIONS.md");
    let rows = rows(&page);
    let named: Vec<String> = rows.iter().map(|r| format!("{}. {}", r[0], r[1])).collect();
    assert_eq!(named, headings(&page));
    for (i, row) in rows.iter().enumerate() {
        assert_eq!(row[0], (i + 1).to_string());
    }
}

#[test]
fn what_overrules_comes_later() {
    for [number, title, overruled] in rows(&read("docs/DECISIONS.md")) {
        if overruled.is_empty() {
            continue;
        }
        let by = overruled.trim_start_matches("in part ").strip_prefix("by ");
        let by: Option<usize> = by.and_then(|by| by.parse().ok());
        let own: usize = number.parse().expect("rows have numbers");
        assert!(by > Some(own), "{number}. {title}: '{overruled}'");
    }
}
