//! The reader of policy files through the crate: the readings of all stored files, parts that are not there, lengths and signatures.

mod common;

use bleiwurzel::policy::{self, Body, Element, List};
use bleiwurzel::Refusal;
use common::top;

fn hex(bytes: &[u8]) -> String {
    bytes.iter().map(|byte| format!("{byte:02x}")).collect()
}

fn list_line(i: usize, list: &List) -> String {
    let algorithm = if list.signed.is_some() { 0x14 } else { 0x10 };
    let (start, size, elements) = (list.bytes.start, list.bytes.len(), list.elements.len());
    let head = format!(
        "list {i} start={start} size={size} version=0x{:04x} algorithm=0x{algorithm:04x} elements={elements}",
        list.version
    );
    match &list.signed {
        None => format!("{head}\n"),
        Some(signed) => {
            let (size, key, signature) = (signed.key.len(), signed.key.start, signed.signature.start);
            assert_eq!((list.elements.end + 4, signed.key.end, signed.signature.end), (key, signature, list.bytes.end));
            format!("{head} counter={} keysize={size} key={key} signature={signature}\n", signed.counter)
        }
    }
}

fn element_lines(file: &[u8], i: usize, j: usize, element: &Element) -> String {
    let (start, size, kind, control) = (element.bytes.start, element.bytes.len(), element.kind, element.control);
    let name = match (&element.body, kind) {
        (Body::Launch(_), policy::LAUNCH) => "launch",
        (Body::Stm(_), policy::STM) => "stm",
        (Body::Other, policy::CUSTOM) => "custom",
        (Body::Other, _) => "unjudged",
        other => panic!("{other:?}"),
    };
    let mut lines = format!("element {i} {j} {name} start={start} size={size} type=0x{kind:08x} control=0x{control:08x}");
    if let Body::Launch(launch) = &element.body {
        lines.push_str(&format!(" sinitminversion={} reserved={}", launch.sinit_min_version, launch.reserved));
    }
    if let Some(digests) = element.digests() {
        lines.push_str(&format!(" hashalg=0x{:04x} count={}", digests.hash_alg, digests.count));
    }
    lines.push('\n');
    let digests = (0..).map_while(|k| policy::digest(element, k));
    digests.for_each(|range| lines.push_str(&format!("digest {}\n", hex(&file[range]))));
    lines
}

/// The reading as the program `policy_show` prints it.
fn shown(file: &[u8]) -> String {
    let count = match policy::read(file) {
        Ok(count) => count,
        Err(refusal) => return format!("{}\n", refusal.line()),
    };
    let mut text = format!("accepted lists={count}\n");
    let in_turn: Vec<_> = policy::lists(file).collect();
    assert_eq!(in_turn.len(), count);
    for (i, (in_turn, elements_in_turn)) in in_turn.iter().enumerate() {
        let list = policy::list(file, i).expect("a list of the reading");
        let elements: Vec<_> = (0..).map_while(|j| policy::element(file, i, j)).collect();
        assert_eq!((in_turn, elements_in_turn), (&list, &elements), "list {i} in turn and by number");
        text.push_str(&list_line(i, &list));
        elements.iter().enumerate().for_each(|(j, element)| text.push_str(&element_lines(file, i, j, element)));
    }
    assert_eq!(policy::list(file, count), None);
    assert_eq!(policy::element(file, count, 0), None);
    text
}

fn folder() -> std::path::PathBuf {
    top().join("crates/policy_show")
}

/// The stored readings: the name of the file and what is printed for it.
fn readings() -> Vec<(String, String)> {
    let text = std::fs::read_to_string(folder().join("stdout")).expect("the stored readings");
    let text = text.strip_prefix("file ").expect("a first line with a name");
    text.split("\nfile ")
        .map(|part| part.split_once('\n').expect("lines after the name"))
        .map(|(name, lines)| (name.to_string(), format!("{}\n", lines.trim_end_matches('\n'))))
        .collect()
}

#[test]
fn every_stored_file_has_its_reading() {
    let readings = readings();
    assert!(readings.len() >= 100, "only {} readings", readings.len());
    for (name, expected) in readings {
        let path = if name == "-" { folder().join("stdin") } else { folder().join("data").join(&name) };
        let file = std::fs::read(path).expect("a stored policy file");
        assert_eq!(shown(&file), expected, "{name}");
    }
}

#[test]
fn parts_that_are_not_there() {
    let (file, _) = common::policy_file(&[common::list(&[common::element(3, b"x")]), common::list(&[])]);
    assert_eq!(policy::read(&file), Ok(2));
    assert!(policy::element(&file, 0, 0).is_some() && policy::list(&file, 1).is_some());
    for i in [2, 3, 255, 256, usize::MAX] {
        assert_eq!(policy::list(&file, i), None, "list {i}");
        assert_eq!(policy::element(&file, i, 0), None, "list {i}");
    }
    for j in [1, 2, usize::MAX] {
        assert_eq!(policy::element(&file, 0, j), None, "element {j}");
    }
    assert_eq!(policy::element(&file, 1, 0), None);
    assert_eq!(policy::list(&file[..file.len() - 1], 0), None, "a refused string has no list");
}

/// The most elements that a policy file can have, 5,457 of 12 bytes: all of them in turn take a few times as long as reading the file once, and
/// not as often as there are elements.
#[test]
fn all_elements_in_turn_take_a_few_readings() {
    let element = common::element(3, b"");
    let (file, _) = common::policy_file(&[common::list(&vec![element; (policy::MOST - policy::FIRST_LIST - 8) / 12])]);
    let time = |run: &dyn Fn() -> usize| {
        let began = std::time::Instant::now();
        assert_eq!(run(), 5_457);
        began.elapsed()
    };
    let once = |_| time(&|| policy::read(&file).map_or(0, |_| 5_457));
    let in_turn = |_| time(&|| policy::lists(&file).map(|(_, elements)| elements.len()).sum());
    let (once, in_turn) = ((0..9).map(once).min().expect("a time"), (0..9).map(in_turn).min().expect("a time"));
    assert!(in_turn < once * 100, "once {once:?}, in turn {in_turn:?}");
}

#[test]
fn at_an_offset() {
    let (file, _) = common::policy_file(&[common::list(&[common::element(3, b"x")]), common::list(&[])]);
    let list = policy::list_at(&file, policy::FIRST_LIST).expect("the first list");
    assert_eq!(Some(&list), policy::list(&file, 0).as_ref());
    assert_eq!(policy::list_at(&file, list.bytes.end), policy::list(&file, 1));
    assert_eq!(policy::element_at(&file, list.elements.start), policy::element(&file, 0, 0));
    for at in [file.len(), file.len() + 1, usize::MAX] {
        assert_eq!((policy::list_at(&file, at), policy::element_at(&file, at)), (None, None), "offset {at}");
    }
    assert_eq!(policy::list_at(&file, policy::FIRST_LIST + 1), None);
    assert_eq!(policy::elements(&file, &list).len(), 1);
    assert_eq!(policy::elements(&file[..list.elements.end - 1], &list), [], "the list of a longer file");
}

/// Where the digests of a launch and of an STM element stand, and that there is none behind the last.
#[test]
fn where_digests_stand() {
    let elements = [common::launch(0, &[[1; 32], [2; 32]]), common::stm(&[[3; 32], [4; 32]]), common::element(3, &[5; 64])];
    let (file, _) = common::policy_file(&[common::list(&elements)]);
    let places: Vec<_> = (0..3).map(|j| policy::element(&file, 0, j).expect("an element")).collect();
    let (launch, stm) = (places[0].bytes.start + 18, places[1].bytes.start + 16);
    for (element, k, expected) in [
        (0, 0, Some(launch..launch + 32)),
        (0, 1, Some(launch + 32..launch + 64)),
        (0, 2, None),
        (1, 0, Some(stm..stm + 32)),
        (1, 1, Some(stm + 32..stm + 64)),
        (1, 2, None),
        (1, usize::MAX, None),
        (2, 0, None),
    ] {
        assert_eq!(policy::digest(&places[element], k), expected, "digest {k} of element {element}");
    }
}

fn refused(number: u32, place: u32) -> Result<usize, Refusal> {
    Err(Refusal { number, place })
}

#[test]
fn lengths() {
    let (mut file, _) = common::policy_file(&[common::list(&[common::element(3, &vec![0; 65_536 - 36 - 8 - 12])])]);
    assert_eq!((file.len(), policy::read(&file)), (65_536, Ok(1)));
    file.push(0);
    assert_eq!(policy::read(&file), refused(26, 0));
    assert_eq!(policy::read(&file[..35]), refused(26, 0));
    assert_eq!(policy::read(&file[..36]), refused(27, 36));
    assert_eq!(policy::read(&[]), refused(26, 0));
}

/// The signature of a list covers every byte of it up to the signature itself, and no byte of another list.
#[test]
fn signatures() {
    for name in ["signed2048-0x200.data", "signed3072-0x201.data"] {
        let mut file = std::fs::read(folder().join("data").join(name)).expect("a stored policy file");
        let [unsigned, signed] = [0, 1].map(|i| policy::list(&file, i).expect("a list"));
        assert_eq!((policy::verifies(&file, &unsigned), policy::verifies(&file, &signed)), (None, Some(true)), "{name}");
        for at in 0..file.len() {
            file[at] ^= 0x10;
            assert_eq!(policy::verifies(&file, &signed), Some(!signed.bytes.contains(&at)), "{name}, byte {at}");
            file[at] ^= 0x10;
        }
        assert_eq!(policy::verifies(&file[..file.len() - 1], &signed), None, "{name}: a list of a longer file");
        assert_eq!(policy::verifies(&[], &signed), None, "{name}: a list of a longer file");
    }
}

#[test]
fn list_counts() {
    for count in 0..=10 {
        let (file, _) = common::policy_file(&vec![common::list(&[]); count]);
        let expected = if (1..=8).contains(&count) { Ok(count) } else { refused(27, 35) };
        assert_eq!(policy::read(&file), expected, "{count} lists");
    }
}
