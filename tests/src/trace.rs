//! docs/TRACE.md taken apart, and the documents that it follows.
//!
//! TRACE has a section for each demand (D1 to D3), for each section of document 01 (S1 on) and for each
//! request of document 02 (E1 on, after E0 for what stands before them), and in it a table
//! `| id | sentence | carried by |`. The sentences of a section, put end to end, are the words of what it
//! follows, every one and in order: that is what makes TRACE complete. A request that has not landed has
//! no table yet, and its section says so.

/// What the section of a request says instead of a table, until the request lands.
const NOT_LANDED: &str = "Not landed yet.";

/// A demand, a section of document 01 or a request: its id, its title and its words in order.
#[derive(Debug, PartialEq)]
pub struct Part {
    pub id: String,
    pub title: String,
    pub words: Vec<String>,
}

/// A section of TRACE that follows a part. It may say that its request has not landed.
#[derive(Debug, PartialEq)]
pub struct Section {
    pub id: String,
    pub title: String,
    pub not_landed: bool,
    pub rows: Vec<Row>,
}

/// A row of TRACE: a sentence, and what carries it.
#[derive(Debug, PartialEq)]
pub struct Row {
    pub id: String,
    pub sentence: Vec<String>,
    pub carried_by: String,
}

/// What the last cell of a row says.
#[derive(Debug, PartialEq)]
pub enum Carried {
    /// By what is named; and whether some of it is still open.
    By(Vec<Reference>, bool),
    /// By the row of a request, which overrules it.
    AmendedBy(String),
    /// By nothing yet.
    Open,
    /// There is nothing to carry, for the reason given.
    NothingToCarry(String),
}

/// A file by its path from the root, and a name that it declares.
#[derive(Debug, PartialEq)]
pub struct Reference {
    pub path: String,
    pub name: Option<String>,
}

// ---- the documents

/// The demands: the items of a numbered list. What stands around the list is no demand.
pub fn demands(text: &str) -> Vec<Part> {
    let mut parts: Vec<Part> = Vec::new();
    let mut inside = false;
    for line in text.lines() {
        let number: String = line.chars().take_while(char::is_ascii_digit).collect();
        let item = line[number.len()..].strip_prefix(". ");
        match item {
            Some(rest) if !number.is_empty() => {
                inside = true;
                parts.push(Part {
                    id: format!("D{number}"),
                    title: format!("Demand {number}"),
                    words: words(rest),
                });
            }
            _ if line.trim().is_empty() => inside = false,
            _ if inside => {
                let last = parts.len() - 1;
                parts[last].words.extend(words(line));
            }
            _ => {}
        }
    }
    parts
}

/// The sections of document 01. What stands before its first heading is not the document's.
pub fn law(text: &str) -> Vec<Part> {
    let mut parts: Vec<Part> = Vec::new();
    let mut fenced = false;
    for line in text.lines() {
        if line.trim_start().starts_with("```") {
            fenced = !fenced;
        } else if !fenced && line.starts_with('#') {
            parts.push(Part {
                id: format!("S{}", parts.len() + 1),
                title: line.trim_start_matches('#').trim().to_string(),
                words: Vec::new(),
            });
        } else if let Some(part) = parts.last_mut() {
            part.words.extend(words(line));
        }
    }
    parts
}

/// The requests of document 02: what stands under its heading, and each paragraph that opens with
/// `**E1: Title.**`. What stands before the heading is not the document's.
pub fn requests(text: &str) -> Vec<Part> {
    let mut parts: Vec<Part> = Vec::new();
    for line in text.lines() {
        let opened = line
            .strip_prefix("**")
            .and_then(|rest| rest.split_once(".**"));
        if let Some(title) = line.strip_prefix("# ") {
            parts.push(Part {
                id: "E0".to_string(),
                title: title.trim().to_string(),
                words: Vec::new(),
            });
        } else if let Some(((id, title), rest)) =
            opened.and_then(|(name, rest)| Some((name.split_once(": ")?, rest)))
        {
            parts.push(Part {
                id: id.to_string(),
                title: title.to_string(),
                words: words(rest),
            });
        } else if let Some(part) = parts.last_mut() {
            part.words.extend(words(line));
        }
    }
    parts
}

/// The words of a line of a document, without the marks that make it a table's row or a list's item.
/// The bars between a row's cells stay, as words.
fn words(line: &str) -> Vec<String> {
    let mut line = line.trim();
    if line.starts_with('|') {
        if line.chars().all(|c| matches!(c, '|' | '-' | ':' | ' ')) {
            return Vec::new();
        }
        line = line.trim_matches('|');
    }
    let line = line.strip_prefix("- ").unwrap_or(line);
    line.split_whitespace().map(str::to_string).collect()
}

// ---- TRACE

/// The sections of TRACE that have an id: headings `## D1. Title`, `## S1. Title` and `## E1. Title`.
pub fn sections(trace: &str) -> Result<Vec<Section>, String> {
    let mut found: Vec<Section> = Vec::new();
    let mut following = false;
    for line in trace.lines() {
        if let Some(heading) = line.strip_prefix("## ") {
            following = false;
            if let Some((id, title)) = heading.split_once(". ") {
                if is_id(id) {
                    following = true;
                    let (id, title) = (id.to_string(), title.trim().to_string());
                    found.push(Section {
                        id,
                        title,
                        not_landed: false,
                        rows: Vec::new(),
                    });
                }
            }
        } else if line == NOT_LANDED && following {
            let section = found.last_mut().expect("a section is being followed");
            section.not_landed = true;
        } else if line.starts_with('|') && following {
            if words(line).is_empty() || line == "| id | sentence | carried by |" {
                continue;
            }
            let section = found.last_mut().expect("a section is being followed");
            section.rows.push(row(line)?);
        }
    }
    Ok(found)
}

/// Whether a heading's first word is the id of a section: D, S or E and a number.
fn is_id(word: &str) -> bool {
    let mut letters = word.chars();
    matches!(letters.next(), Some('D' | 'S' | 'E'))
        && word.len() > 1
        && letters.all(|c| c.is_ascii_digit())
}

fn row(line: &str) -> Result<Row, String> {
    let bad = || format!("not a row of three cells: {line}");
    let inner = line.trim_end().strip_prefix('|').ok_or_else(bad)?;
    let inner = inner.strip_suffix('|').ok_or_else(bad)?;
    // a bar inside a cell is written \|, and no cell has the mark that stands in for it here
    let hidden = inner.replace("\\|", "\0");
    let cells: Vec<String> = hidden.split('|').map(|c| c.replace('\0', "|")).collect();
    if cells.len() != 3 {
        return Err(bad());
    }
    let sentence = cells[1].replace("<br>", " ");
    Ok(Row {
        id: cells[0].trim().to_string(),
        sentence: sentence.split_whitespace().map(str::to_string).collect(),
        carried_by: cells[2].trim().to_string(),
    })
}

/// Where TRACE does not follow the parts: the first section, id or word that differs.
pub fn difference(parts: &[Part], sections: &[Section]) -> Option<String> {
    let name = |id: &str, title: &str| format!("{id}. {title}");
    let wanted: Vec<String> = parts.iter().map(|p| name(&p.id, &p.title)).collect();
    let there: Vec<String> = sections.iter().map(|s| name(&s.id, &s.title)).collect();
    if wanted != there {
        return Some(format!(
            "the sections should be {wanted:?} and are {there:?}"
        ));
    }
    for (part, section) in parts.iter().zip(sections) {
        if section.not_landed {
            if !is_request(&part.id) {
                return Some(format!(
                    "{} is no request, and has to be followed",
                    section.id
                ));
            }
            if !section.rows.is_empty() {
                return Some(format!(
                    "{} has rows and says that it has not landed",
                    section.id
                ));
            }
            continue;
        }
        let mut rest = part.words.iter();
        for (i, row) in section.rows.iter().enumerate() {
            let id = format!("{}.{}", section.id, i + 1);
            if row.id != id {
                return Some(format!("the row {} should be {id}", row.id));
            }
            if row.sentence.is_empty() {
                return Some(format!("{id} has no sentence"));
            }
            for word in &row.sentence {
                match rest.next() {
                    Some(wanted) if wanted == word => {}
                    Some(wanted) => {
                        return Some(format!("{id} has '{word}' where '{wanted}' belongs"));
                    }
                    None => return Some(format!("{id} goes on after the end, at '{word}'")),
                }
            }
        }
        if let Some(word) = rest.next() {
            return Some(format!("{} ends before '{word}'", section.id));
        }
    }
    None
}

/// Whether a part is a request, which may wait for its landing.
fn is_request(id: &str) -> bool {
    id.starts_with('E') && id != "E0"
}

/// Whether a row holds the end of one sentence and the start of another. A label such as `P2.` that
/// opens a row ends nothing.
pub fn holds_two(sentence: &[String]) -> bool {
    let ends = |word: &str| word.ends_with('.') || word.ends_with(".)");
    let starts = |word: &str| {
        let first = word.trim_start_matches(['(', '"', '`', '*']);
        first.starts_with(|c: char| c.is_uppercase() || c.is_ascii_digit())
    };
    let label = |word: &str| {
        let number = word.strip_prefix('P').and_then(|w| w.strip_suffix('.'));
        matches!(number, Some(n) if n.parse::<u32>().is_ok())
    };
    let skip = usize::from(matches!(sentence.first(), Some(word) if label(word)));
    sentence[skip..]
        .windows(2)
        .any(|w| ends(&w[0]) && starts(&w[1]))
}

/// What the last cell of a row says, or what is wrong with it.
pub fn carried(cell: &str) -> Result<Carried, String> {
    let mut references = Vec::new();
    let mut plain = String::new();
    for (i, piece) in cell.split('`').enumerate() {
        if i % 2 == 0 {
            plain.push_str(piece);
            continue;
        }
        let (path, name) = match piece.split_once('#') {
            Some((path, name)) => (path, Some(name.to_string())),
            None => (piece, None),
        };
        if path.is_empty() || name.as_deref() == Some("") {
            return Err(format!("`{piece}` names no file, or no name in it"));
        }
        references.push(Reference {
            path: path.to_string(),
            name,
        });
    }
    if cell.matches('`').count() % 2 == 1 {
        return Err("a backtick is not closed".to_string());
    }
    let plain = plain.trim_matches(&[' ', ',', ';'][..]);
    if let Some(rest) = plain.strip_prefix("says nothing to carry") {
        let reason = rest.strip_prefix(": ").unwrap_or("").trim();
        return match (references.is_empty(), reason.is_empty()) {
            (true, false) => Ok(Carried::NothingToCarry(reason.to_string())),
            (true, true) => Err("no reason is given".to_string()),
            (false, _) => Err("it says nothing to carry, and yet something carries it".to_string()),
        };
    }
    if let Some(row) = plain.strip_prefix("amended by ") {
        let of_request = row.split_once('.').map_or(false, |(id, number)| {
            is_id(id) && is_request(id) && number.parse::<u32>().is_ok()
        });
        return match (references.is_empty(), of_request) {
            (true, true) => Ok(Carried::AmendedBy(row.to_string())),
            (true, false) => Err(format!("'{row}' is not the row of a request")),
            (false, _) => Err("it is amended, and yet something carries it".to_string()),
        };
    }
    let open = plain == "open" || plain.starts_with("open: ");
    if !open && !plain.chars().all(|c| matches!(c, ' ' | ',' | ';')) {
        return Err(format!(
            "'{plain}' is neither a reference nor a word that stands for none"
        ));
    }
    match (references.is_empty(), open) {
        (false, _) => Ok(Carried::By(references, open)),
        (true, true) => Ok(Carried::Open),
        (true, false) => Err("nothing is said".to_string()),
    }
}

#[cfg(test)]
mod tests {
    use super::*;

    const LAW: &str =
        "A line on top.\n\n# One\n\nFirst **thing**. Second.\n\n| a | b |\n|---|---|\n\
                       | 1 | 2 |\n\n## Two\n\n- P1. An item.\n```\n# x 1\n```\n";
    const TRACE: &str = "# Title\n\n## How to read this\n\n| no | row |\n\n## S1. One\n\n\
                         | id | sentence | carried by |\n|---|---|---|\n\
                         | S1.1 | First **thing**. | open |\n| S1.2 | Second. | open |\n\
                         | S1.3 | a \\| b | open |\n| S1.4 | 1 \\| 2 | open |\n\n## S2. Two\n\n\
                         | S2.1 | P1. An item. | open |\n| S2.2 | # x<br>1 | open |\n";

    fn compared(law_text: &str, trace: &str) -> Option<String> {
        difference(&law(law_text), &sections(trace).unwrap())
    }

    #[test]
    fn a_complete_trace_passes() {
        assert_eq!(compared(LAW, TRACE), None);
    }

    #[test]
    fn a_row_that_is_dropped_is_seen_wherever_it_stood() {
        for line in TRACE.lines().filter(|l| l.starts_with("| S")) {
            let less = TRACE.replace(&format!("{line}\n"), "");
            assert!(compared(LAW, &less).is_some(), "without {line}");
        }
    }

    #[test]
    fn a_word_that_is_changed_is_seen_wherever_it_stood() {
        for line in TRACE.lines().filter(|l| l.starts_with("| S")) {
            let start = line.find(" | ").unwrap() + 3;
            let end = line.rfind(" | ").unwrap();
            for at in start..end {
                // white space is all that may change
                if &line[at..=at] == " " {
                    continue;
                }
                let changed = format!("{}?{}", &line[..at], &line[at + 1..]);
                let trace = TRACE.replace(line, &changed);
                let seen = match sections(&trace) {
                    Ok(sections) => difference(&law(LAW), &sections).is_some(),
                    Err(_) => true,
                };
                assert!(seen, "{changed}");
            }
        }
    }

    #[test]
    fn rows_that_change_places_are_seen() {
        let turned = TRACE
            .replace("First **thing**.", "?")
            .replace("Second.", "First **thing**.");
        let turned = turned.replace('?', "Second.");
        assert!(compared(LAW, &turned).is_some());
    }

    #[test]
    fn a_row_too_many_or_a_section_too_few_is_seen() {
        let more = format!("{TRACE}| S2.3 | More. | open |\n");
        assert_eq!(
            compared(LAW, &more),
            Some("S2.3 goes on after the end, at 'More.'".into())
        );
        let less = TRACE.split("## S2").next().unwrap();
        assert!(compared(LAW, less).is_some());
        assert!(compared(LAW, &TRACE.replace("## S2. Two", "## S2. Too")).is_some());
    }

    #[test]
    fn a_sentence_that_is_new_in_the_law_is_missed_in_trace() {
        let longer = LAW.replace("Second.", "Second. Third.");
        assert_eq!(
            compared(&longer, TRACE),
            Some("S1.3 has 'a' where 'Third.' belongs".into())
        );
    }

    #[test]
    fn ids_run_without_a_gap() {
        assert!(compared(LAW, &TRACE.replace("S1.2", "S1.3")).is_some());
    }

    #[test]
    fn a_row_has_three_cells() {
        assert!(sections(&TRACE.replace("a \\| b", "a | b")).is_err());
        assert!(sections(&TRACE.replace("| Second. | open |", "| Second. |")).is_err());
    }

    #[test]
    fn demands_are_the_numbered_items() {
        let parts = demands("# Head\n\nWho signs. 1.\n\n1. One\n   and more.\n2. Two.\n\nAfter.\n");
        let told: Vec<String> = parts
            .iter()
            .map(|p| format!("{} {}", p.id, p.words.join(" ")))
            .collect();
        assert_eq!(told, ["D1 One and more.", "D2 Two."]);
    }

    const REQUESTS: &str = "A line on top.\n\n# Later\n\nEach is one landing.\n\n\
                            **E1: One thing.** First. Second.\n\n**E2: Another.** Third.\n";
    const TRACED: &str = "## E0. Later\n\n| E0.1 | Each is one landing. | open |\n\n\
                          ## E1. One thing\n\n| E1.1 | First. | open |\n| E1.2 | Second. | open |\n\n\
                          ## E2. Another\n\nNot landed yet.\n";

    fn requests_compared(trace: &str) -> Option<String> {
        difference(&requests(REQUESTS), &sections(trace).unwrap())
    }

    #[test]
    fn a_request_is_followed_or_has_not_landed() {
        assert_eq!(requests_compared(TRACED), None);
        let silent = TRACED.replace("Not landed yet.\n", "");
        assert_eq!(
            requests_compared(&silent),
            Some("E2 ends before 'Third.'".into())
        );
        let both = format!("{TRACED}\n| E2.1 | Third. | open |\n");
        assert!(requests_compared(&both).is_some());
        let less = TRACED.replace("| E1.2 | Second. | open |\n", "");
        assert_eq!(
            requests_compared(&less),
            Some("E1 ends before 'Second.'".into())
        );
        let before = TRACED.replace("| E0.1 | Each is one landing. | open |", "Not landed yet.");
        assert!(requests_compared(&before).is_some());
    }

    #[test]
    fn two_sentences_in_a_row_are_seen() {
        let holds = |text: &str| holds_two(&words(text));
        assert!(holds("One. Two."));
        assert!(holds("(One.) Two."));
        assert!(holds("place 0. 13 CONTENTS"));
        assert!(holds("P1. One. P2. Two."));
        assert!(!holds("P1. One, (1,9): 0 1."));
        assert!(!holds("no. | given exactly when | place"));
        assert!(!holds("(n, p, n, p, ..), the bodies"));
    }

    #[test]
    fn cells_are_read() {
        let to = |path: &str, name: Option<&str>| Reference {
            path: path.to_string(),
            name: name.map(str::to_string),
        };
        assert_eq!(carried("open"), Ok(Carried::Open));
        assert_eq!(
            carried("`a/b.rt#F`"),
            Ok(Carried::By(vec![to("a/b.rt", Some("F"))], false))
        );
        let both = vec![to("a", None), to("b", Some("c"))];
        assert_eq!(
            carried("`a`, `b#c`; open: the rest"),
            Ok(Carried::By(both, true))
        );
        let source = Ok(Carried::NothingToCarry("a source".to_string()));
        assert_eq!(carried("says nothing to carry: a source"), source);
        let amended = Ok(Carried::AmendedBy("E1.3".to_string()));
        assert_eq!(carried("amended by E1.3"), amended);
    }

    #[test]
    fn silent_cells_are_refused() {
        for cell in [
            "",
            "later",
            "opened",
            "`a`, later",
            "``",
            "`a#`",
            "`#a`",
            "`a",
            "says nothing to carry",
            "says nothing to carry: ",
            "`a`, says nothing to carry: a source",
            "amended by E1",
            "amended by S1.3",
            "amended by E0.1",
            "amended by E1.x",
            "`a`, amended by E1.3",
        ] {
            assert!(carried(cell).is_err(), "{cell}");
        }
    }
}
