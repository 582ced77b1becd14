//! Text in lines of at most 80 columns, for the console of a rack. What stands in backticks is not broken; only a command line with flags
//! may be, and then gets a backslash, so that it can be copied as it stands.

const WIDTH: usize = 80;
/// What stands at the end of a line that breaks a command line.
const CONTINUED: &str = " \\";
/// A blank at which no line ends.
const FIXED: &str = "\u{a0}";

/// The text with fixed blanks in all that is not to be broken.
fn kept_together(text: &str) -> String {
    let piece = |(i, piece): (usize, &str)| {
        let whole = i % 2 == 1 && !piece.contains(" --");
        if whole {
            piece.replace(' ', FIXED)
        } else {
            piece.to_string()
        }
    };
    text.split('`').enumerate().map(piece).collect::<Vec<_>>().join("`")
}

/// Appends a text behind a lead; further lines are indented as far as the lead is long. A word that is too long has its own line.
pub fn wrapped(out: &mut String, lead: &str, text: &str) {
    let indent = lead.chars().count();
    let mut column = indent;
    let mut in_command = false;
    out.push_str(lead);
    for (i, word) in kept_together(text).split([' ', '\n']).filter(|word| !word.is_empty()).enumerate() {
        let length = word.chars().count();
        let ends_in_command = in_command ^ (word.matches('`').count() % 2 == 1);
        let room = if ends_in_command { WIDTH - CONTINUED.len() } else { WIDTH };
        if i > 0 && column + 1 + length > room {
            out.push_str(if in_command { CONTINUED } else { "" });
            out.push('\n');
            out.push_str(&" ".repeat(indent));
            column = indent;
        } else if i > 0 {
            out.push(' ');
            column += 1;
        }
        out.push_str(&word.replace(FIXED, " "));
        column += length;
        in_command = ends_in_command;
    }
    out.push('\n');
}

/// A title and points under it.
pub fn points<T: AsRef<str>>(out: &mut String, title: &str, points: &[T]) {
    out.push_str(&format!("\n{title}\n"));
    points.iter().for_each(|point| wrapped(out, "  - ", point.as_ref()));
}

#[cfg(test)]
mod tests {
    use super::wrapped;

    #[test]
    fn lines_are_short_and_keep_every_word() {
        let text = "word ".repeat(100);
        let mut out = String::new();
        wrapped(&mut out, "  - ", &text);
        assert!(out.lines().count() > 1);
        assert!(out.lines().all(|line| line.chars().count() <= 80), "{out}");
        assert_eq!(out.split_whitespace().filter(|word| *word == "word").count(), 100);
        assert!(out.lines().skip(1).all(|line| line.starts_with("    word")), "{out}");
    }

    #[test]
    fn a_long_word_has_its_own_line() {
        let mut out = String::new();
        wrapped(&mut out, "> ", &format!("a {} b", "x".repeat(90)));
        assert_eq!(out, format!("> a\n  {}\n  b\n", "x".repeat(90)));
    }

    #[test]
    fn what_is_no_command_line_is_not_broken() {
        let mut out = String::new();
        wrapped(&mut out, "", &format!("{} `two words` and `ls -l`.", "x".repeat(72)));
        assert_eq!(out, format!("{}\n`two words` and `ls -l`.\n", "x".repeat(72)));
    }

    /// Whatever stands before it, a command line is whole when the broken lines are joined as a shell joins them.
    #[test]
    fn a_broken_command_line_can_be_copied() {
        let command = ["tool"].into_iter().chain(["--flag", "value"].into_iter().cycle().take(40)).collect::<Vec<_>>().join(" ");
        for before in 0..90 {
            let mut out = String::new();
            wrapped(&mut out, "  - ", &format!("{} `{command}`, and a few more words behind it.", "x".repeat(before)));
            assert!(out.lines().all(|line| line.chars().count() <= 80 || line.starts_with("  - xxx")), "{out}");
            let copied = out.split('`').nth(1).expect("a command line").replace("\\\n", " ");
            assert_eq!(copied.split_whitespace().collect::<Vec<_>>().join(" "), command, "{out}");
            assert!(!out.split('`').nth(2).expect("words behind it").contains('\\'), "{out}");
        }
    }
}
