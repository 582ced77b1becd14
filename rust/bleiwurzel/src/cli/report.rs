//! An answer for people, or as JSON.

use super::json::{hex, texts, Json};
use super::wrap::{points, wrapped};
use super::{platform, Said, NO, YES};
use bleiwurzel::finding::{Field, Finding};
use bleiwurzel::refusals::Text;
use bleiwurzel::text::{counted, digits};
use bleiwurzel::{Permission, Refusal, PAGE_SIZE};

/// Pages that follow one another in memory as well as in linear order: the first byte, and how many.
fn ranges(pages: &[u64]) -> Vec<(u64, u64)> {
    let mut ranges: Vec<(u64, u64)> = Vec::new();
    for page in pages {
        match ranges.last_mut() {
            Some((first, count)) if *first + PAGE_SIZE * *count == *page => *count += 1,
            _ => ranges.push((*page, 1)),
        }
    }
    ranges
}

fn pages(count: u64) -> String {
    counted(count, "page")
}

/// A permission on a platform with so many reserved ranges.
pub fn permitted(permission: &Permission, list: &[u64], reserved: Option<usize>, json: bool) -> Said {
    let ranges = ranges(&list[..permission.pages]);
    let text = match json {
        true => permitted_json(permission, &ranges, reserved).line(),
        false => permitted_text(permission, &ranges, reserved),
    };
    Said { text, status: YES }
}

/// How many reserved ranges there are; null where that is not known.
fn reserved_json(reserved: Option<usize>) -> (&'static str, Json) {
    (platform::RESERVED, reserved.map_or(Json::Null, Json::from))
}

fn permitted_text(permission: &Permission, ranges: &[(u64, u64)], reserved: Option<usize>) -> String {
    let mut text = format!("permitted\n\n  image   {}, in linear order\n", pages(permission.pages as u64));
    for (first, count) in ranges {
        text.push_str(&format!("          {first:#018x} to {:#018x}  {}\n", first + PAGE_SIZE * count - 1, pages(*count)));
    }
    if let Some(count @ 1..) = reserved {
        text.push_str(&format!("  clear   of {}\n", counted(count as u64, "reserved range")));
    }
    match permission.list {
        Some(list) => text.push_str(&format!("  list    {list}, the lowest that permits, counted from 0\n")),
        None => text.push_str("  list    none: the policy is ANY\n"),
    }
    text.push_str(&format!("  digest  {}\n", digits(&permission.digest)));
    text
}

fn permitted_json(permission: &Permission, ranges: &[(u64, u64)], reserved: Option<usize>) -> Json {
    let range = |(first, count): &(u64, u64)| {
        Json::Object(vec![("first", hex(*first)), ("last", hex(first + PAGE_SIZE * count - 1)), ("pages", Json::from(*count))])
    };
    Json::Object(vec![
        ("answer", Json::from("permitted")),
        ("number", Json::from(0u32)),
        ("pages", Json::from(permission.pages)),
        ("ranges", Json::List(ranges.iter().map(range).collect())),
        ("list", permission.list.map_or(Json::Null, |list| Json::from(u32::from(list)))),
        ("digest", Json::from(digits(&permission.digest))),
        reserved_json(reserved),
    ])
}

/// A refusal that `command` met.
pub fn refused(refusal: Refusal, finding: Option<&Finding>, command: &str, json: bool) -> Said {
    refused_in(refusal, finding, "", command, json)
}

/// The same with lines that show the place to people; they follow the finding.
pub fn refused_in(refusal: Refusal, finding: Option<&Finding>, lines: &str, command: &str, json: bool) -> Said {
    let text = match json {
        true => Json::Object(refused_json(refusal, finding, command)).line(),
        false => refused_text(refusal, finding, lines, command),
    };
    Said { text, status: NO }
}

/// A refusal of the check on a platform with so many reserved ranges; of a file that is no capture their number is not known.
pub fn not_permitted(refusal: Refusal, finding: Option<&Finding>, reserved: Option<usize>, command: &str, json: bool) -> Said {
    if !json {
        return refused(refusal, finding, command, json);
    }
    let members = refused_json(refusal, finding, command).into_iter().chain([reserved_json(reserved)]).collect();
    Said { text: Json::Object(members).line(), status: NO }
}

/// What a technician checks, without the advice to run the command that is running.
fn technician(about: &Text, command: &str) -> Vec<&'static str> {
    let same = format!("`{command} FILE`");
    about.technician.iter().copied().filter(|point| !point.contains(&same)).collect()
}

fn refused_text(refusal: Refusal, finding: Option<&Finding>, lines: &str, command: &str) -> String {
    let line = refusal.line();
    let about = match refusal.text() {
        Some(about) => about,
        None => {
            return format!("{line}\n");
        }
    };
    let mut text = format!("{line}, {}\n", about.name);
    wrapped(&mut text, "", about.meaning);
    if let Some(finding) = finding {
        text.push_str("\nWhat was found\n");
        wrapped(&mut text, "  where     ", &finding.place);
        wrapped(&mut text, "  expected  ", &finding.expected);
        wrapped(&mut text, "  found     ", &finding.found);
        finding.notes.iter().for_each(|note| wrapped(&mut text, "            ", note));
    }
    if !lines.is_empty() {
        text.push_str(&format!("\n{lines}"));
    }
    points(&mut text, "What to do at the rack", &technician(about, command));
    points(&mut text, "What the image's builder changes", about.builder);
    text.push_str(&format!("\nThe whole rule and the usual causes: bleiwurzel refusals {}\n", refusal.number));
    text
}

fn field_json(field: &Field) -> Json {
    Json::Object(vec![
        ("name", Json::from(field.name.as_str())),
        ("offset", Json::from(field.bytes.start)),
        ("length", Json::from(field.bytes.end - field.bytes.start)),
    ])
}

fn refused_json(refusal: Refusal, finding: Option<&Finding>, command: &str) -> Vec<(&'static str, Json)> {
    let about = refusal.text();
    let found = finding.map_or(Json::Null, |finding| {
        Json::Object(vec![
            ("where", Json::from(finding.place.as_str())),
            ("field", finding.field.as_ref().map_or(Json::Null, field_json)),
            ("expected", Json::from(finding.expected.as_str())),
            ("found", Json::from(finding.found.as_str())),
            ("notes", texts(&finding.notes)),
        ])
    });
    vec![
        ("answer", Json::from("refused")),
        ("number", Json::from(refusal.number)),
        ("place", Json::from(refusal.place)),
        ("name", about.map_or(Json::Null, |about| Json::from(about.name))),
        ("meaning", Json::from(refusal.meaning())),
        ("finding", found),
        ("technician", about.map_or(Json::Null, |about| texts(&technician(about, command)))),
        ("builder", about.map_or(Json::Null, |about| texts(about.builder))),
    ]
}

#[cfg(test)]
mod tests {
    use super::ranges;

    #[test]
    fn neighbours_make_one_range() {
        assert_eq!(ranges(&[]), []);
        assert_eq!(ranges(&[0x1000]), [(0x1000, 1)]);
        assert_eq!(ranges(&[0x1000, 0x2000, 0x4000, 0x5000, 0x6000]), [(0x1000, 2), (0x4000, 3)]);
    }
}
