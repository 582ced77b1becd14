//! `bleiwurzel refusals`: the page docs/REFUSALS.md, or what is written about one number.

use super::json::{texts, Json};
use super::wrap::{points, wrapped};
use super::{args, help, misuse, names, Misuse, Said, YES};
use bleiwurzel::refusals::{self, Text};
use std::ffi::OsString;

const HELP: &str = "bleiwurzel refusals";

pub fn run(words: Vec<OsString>) -> Result<Said, Misuse> {
    let args = args::parse(words, HELP, &[], &["--json"])?;
    if args.has("--help") {
        return Ok(Said { text: help::REFUSALS.to_string(), status: YES });
    }
    let json = args.has("--json");
    let text = match args.words.as_slice() {
        [] if json => Json::List(refusals::TEXTS.iter().map(one_json).collect()).line(),
        [] => refusals::markdown(),
        [word] => {
            let text = match word.to_str().and_then(|word| word.parse().ok()).and_then(refusals::text) {
                Some(text) => text,
                None => {
                    let (word, last) = (names::shown(word), refusals::TEXTS.len());
                    return misuse(HELP, format!("'{word}' is no refusal; they are numbered 1 to {last}"));
                }
            };
            if json {
                one_json(text).line()
            } else {
                one(text)
            }
        }
        _ => return misuse(HELP, "give one number, or none for all"),
    };
    Ok(Said { text, status: YES })
}

fn one(text: &Text) -> String {
    let mut out = format!("{}, {}\n", text.number, text.name);
    wrapped(&mut out, "", text.meaning);
    out.push_str("\nThe rule\n");
    wrapped(&mut out, "  ", text.rule);
    points(&mut out, "Usual causes", text.causes);
    points(&mut out, "What to do at the rack", text.technician);
    points(&mut out, "What the image's builder changes", text.builder);
    out
}

fn one_json(text: &Text) -> Json {
    Json::Object(vec![
        ("number", Json::from(text.number)),
        ("name", Json::from(text.name)),
        ("meaning", Json::from(text.meaning)),
        ("rule", Json::from(text.rule)),
        ("causes", texts(text.causes)),
        ("technician", texts(text.technician)),
        ("builder", texts(text.builder)),
    ])
}
