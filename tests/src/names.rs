//! Whether a file declares a name, for the references of docs/TRACE.md.

/// Whether the text of the file declares the name; in a file of no language known here, whether it
/// holds it.
pub fn declares(path: &str, text: &str, name: &str) -> bool {
    if path.ends_with(".antt") {
        text.lines().any(|line| antt_names(line).contains(&name))
    } else if path.ends_with(".rt") || path.ends_with(".rs") {
        code_declares(text, name)
    } else {
        text.contains(name)
    }
}

/// The names that a line of antt declares: those before the colon that stands in no bracket. Where
/// there is none, the name that an equation is for.
fn antt_names(line: &str) -> Vec<&str> {
    const MARKS: [&str; 6] = ["unfoldable", "abbrev", "pub", "data", "record", "mod"];
    let is_mod = line.trim_start().starts_with("pub mod ");
    let mut names = Vec::new();
    let mut depth = 0i32;
    let mut bracket_seen = false;
    for token in line.split_whitespace() {
        if depth == 0 && (token == ":" || token == "=") {
            if token == "=" {
                names.truncate(1);
            }
            return names;
        }
        if token.starts_with("--") {
            break;
        }
        let open = token.matches(['(', '{']).count() as i32;
        let close = token.matches([')', '}']).count() as i32;
        bracket_seen = bracket_seen || open + close > 0;
        depth += open - close;
        let mark = names.is_empty() && MARKS.contains(&token);
        if !bracket_seen && !mark {
            names.push(token);
        }
    }
    if is_mod {
        return names;
    }
    Vec::new()
}

/// Whether Rattle or Rust declares the name: an item, or a variant on a line of its own in an enum.
fn code_declares(text: &str, name: &str) -> bool {
    const ITEMS: [&str; 6] = ["fn", "struct", "enum", "const", "mod", "type"];
    let mut in_enum = false;
    let mut depth = 0usize;
    for line in text.lines() {
        let line = line.split("//").next().unwrap_or("");
        let names: Vec<&str> = identifiers(line);
        if names
            .windows(2)
            .any(|w| ITEMS.contains(&w[0]) && w[1] == name)
        {
            return true;
        }
        if in_enum && depth == 1 && names.first() == Some(&name) && line.trim().starts_with(name) {
            return true;
        }
        if depth == 0 && names.contains(&"enum") {
            in_enum = true;
        }
        if in_enum {
            depth += line.matches('{').count();
            depth = depth.saturating_sub(line.matches('}').count());
            in_enum = depth > 0 || !line.contains('}');
        }
    }
    false
}

fn identifiers(line: &str) -> Vec<&str> {
    let parted = line.split(|c: char| !(c.is_alphanumeric() || c == '_'));
    parted.filter(|word| !word.is_empty()).collect()
}

#[cfg(test)]
mod tests {
    use super::*;

    #[test]
    fn names_of_antt_are_found() {
        let text = "-- Ghost : a comment\npub data Same (g : Graph) : ℕ → Type 0 where\n  \
                    pair : Same\n  left right : Same\nabbrev pub joins : ℕ\njoins = used\n\
                    unfoldable pub _≤_ {a} : T\npub record R (a b : ℕ) : Type 0 where\n  pub le : T\n\
                    split x\n    subst (λ (k : ℕ). k) y\npub mod Part\nuse lib.Nat.{taken}\n";
        for name in [
            "Same", "pair", "left", "right", "joins", "_≤_", "R", "le", "Part",
        ] {
            assert!(declares("x.antt", text, name), "{name}");
        }
        for name in [
            "Ghost", "g", "b", "used", "subst", "split", "taken", "pub", "T", "Sam", "",
        ] {
            assert!(!declares("x.antt", text, name), "{name}");
        }
    }

    #[test]
    fn names_of_code_are_found() {
        let text = "// fn ghost()\npub const MEETINGS: [u8; 9] = OTHER;\npub extern \"C\" fn go(x: u8)\n\
                    struct Label(u16);\nenum Kind {\n    Variable,\n    Function(u8),\n    Other { at: u8 },\n}\n\
                    mod inner;\nfn f() {\n    used(1);\n    Wrong;\n}\n";
        for name in [
            "MEETINGS", "go", "Label", "Kind", "Variable", "Function", "Other", "inner", "f",
        ] {
            assert!(declares("x.rt", text, name), "{name}");
        }
        for name in ["ghost", "OTHER", "used", "Wrong", "at", "Variab", "u8", ""] {
            assert!(!declares("x.rs", text, name), "{name}");
        }
    }

    #[test]
    fn other_files_hold_the_text() {
        assert!(declares("a.md", "## Head of it", "Head of"));
        assert!(!declares("a.md", "## Head of it", "Tail"));
    }
}
