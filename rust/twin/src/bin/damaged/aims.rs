//! Where damages are aimed: at the fields that are read, since a byte of a page's content changes nothing but the digest. They are looked up in the
//! undamaged source, by the twin's own reading as far as that goes; where a part cannot be read, its first bytes stand for its fields.

use crate::dice::Dice;
use crate::subject::{Form, Seen, Subject, CAPTURE, HEAP, PARTS, RECORD, SINIT, STM, WINDOW};
use inputs::PAGE_SIZE;
use twin::capture::Layout;
use twin::field::{u64_at, u64_in};
use twin::heap::OsSinitData;
use twin::policy::List;
use twin::walk::ADDRESS;
use twin::{heap, module, policy};

/// Bytes that hold fields: the number of the part, the offset there and how many they are.
#[derive(Clone, Copy, Debug, PartialEq, Eq)]
pub struct Stretch {
    pub part: usize,
    pub at: usize,
    pub length: usize,
}

/// Groups of stretches, each as often as it has weight. A group is chosen first, so that a part with many fields does not get all damages.
#[derive(Default)]
pub struct Aims(Vec<Vec<Stretch>>);

impl Aims {
    pub fn choose(&self, dice: &mut Dice) -> Option<Stretch> {
        let groups = &self.0;
        let group = groups.get(dice.below(groups.len().max(1)))?;
        Some(group[dice.below(group.len())])
    }

    /// Adds a group with a weight. Stretches reach no further than their part, and those without a byte are left out.
    fn add(&mut self, subject: &Subject, weight: usize, stretches: impl IntoIterator<Item = Stretch>) {
        let inside = |stretch: Stretch| {
            let length = stretch.length.min(subject.bytes[stretch.part].len().saturating_sub(stretch.at));
            Stretch { length, ..stretch }
        };
        let group: Vec<Stretch> = stretches.into_iter().map(inside).filter(|stretch| stretch.length > 0).collect();
        if !group.is_empty() {
            self.0.extend(vec![group; weight]);
        }
    }
}

/// The aims of a source.
pub fn of(subject: &Subject) -> Aims {
    let mut aims = Aims::default();
    if subject.form == Form::Capture {
        let stretches = capture_head(&subject.bytes[CAPTURE]).map(|(at, length)| Stretch { part: CAPTURE, at, length });
        aims.add(subject, 3, stretches);
    }
    if let Some(seen) = subject.seen() {
        let asked = heap::read(seen.parts.heap).ok();
        let (tables, header) = asked.map_or((Vec::new(), Vec::new()), |asked| tables_and_header(&seen, &asked));
        let file = asked.map_or(Vec::new(), |asked| policy_file(&seen, &asked));
        let parts = [
            (6, WINDOW, tables),
            (2, WINDOW, header),
            (10, WINDOW, file),
            (4, HEAP, heap_fields(&seen, asked.as_ref())),
            (3, SINIT, module_fields(&seen)),
            (3, RECORD, vec![(0, seen.parts.record.len())]),
            (2, STM, vec![(0, seen.parts.stm.len())]),
        ];
        for (weight, part, stretches) in parts {
            let (held, offset) = seen.held[part];
            aims.add(
                subject,
                weight,
                stretches.iter().map(|(at, length)| Stretch { part: held, at: offset + at, length: *length }),
            );
        }
    }
    let whole = (0..subject.bytes.len().min(PARTS)).map(|part| Stretch { part, at: 0, length: usize::MAX });
    aims.add(subject, 1, whole);
    aims
}

/// An offset in a part, and how many bytes.
type Place = (usize, usize);

/// The head of a capture: mark and version, the platform's numbers, the reserved ranges with their count, and the lengths, by themselves and with all else.
fn capture_head(capture: &[u8]) -> [Place; 5] {
    let layout = Layout::read(capture).unwrap_or(Layout::PLAIN);
    let lengths = layout.length(0);
    let ranges = Layout::range(0) - 2;
    [(0, 5), (5, ranges - 5), (ranges, lengths - ranges), (lengths, layout.head() - lengths), (0, layout.head())]
}

/// How many entries a directory and a page table have.
const ENTRIES: usize = twin::walk::ENTRIES as usize;

/// The used entries of each table, with one behind them, and the MLE header in the first page.
fn tables_and_header(seen: &Seen, asked: &OsSinitData) -> (Vec<Place>, Vec<Place>) {
    let window = seen.parts.window;
    let page = |address: u64| -> Option<usize> {
        let offset = address.checked_sub(seen.platform.window_base)?;
        (offset.checked_add(PAGE_SIZE)? <= window.len() as u64).then_some(offset as usize)
    };
    let mut places = Vec::new();
    let mut level = vec![asked.tables];
    for entries in [4, ENTRIES, ENTRIES] {
        let mut named = Vec::new();
        for at in level.iter().filter_map(|address| page(*address)) {
            let present: Vec<usize> = (0..entries).filter(|index| window[at + 8 * index] & 1 == 1).collect();
            named.extend(present.iter().map(|index| u64_at(window, at + 8 * index) & ADDRESS));
            let (first, last) = (present.first().copied().unwrap_or(0), present.last().copied().unwrap_or(0));
            places.push((at + 8 * first, 8 * (last + 2 - first).min(ENTRIES - first)));
        }
        level = named;
    }
    let header = level.first().and_then(|first| page(*first)).map(|at| at + (asked.header_base % PAGE_SIZE) as usize);
    (places, header.map(|at| (at, 52)).into_iter().collect())
}

/// The sizes of the heap's parts, OsSinitData and the first of its elements.
fn heap_fields(seen: &Seen, asked: Option<&OsSinitData>) -> Vec<Place> {
    let begin = asked.map_or(0, |asked| asked.at - heap::SIZE_LENGTH);
    let second = u64_in(seen.parts.heap, 0).filter(|size| *size < seen.parts.heap.len() as u64).unwrap_or(0) as usize;
    let fields = (begin + heap::SIZE_LENGTH, heap::LEAST);
    let sizes = [(0, 8), (second, 8), (begin, 8), (begin + heap::LEAST - 8, 64)];
    // Most sizes are refused by rule 2, and so come less often than what the fields ask for.
    [&sizes[..], &[fields; 8]].concat()
}

/// The header, the information table and the chipset list.
fn module_fields(seen: &Seen) -> Vec<Place> {
    let sinit = seen.parts.sinit;
    let mut places = vec![(0, module::HEADER_LENGTH as usize), (40, 16)];
    let table = module::Header::read(sinit).map_or(0, |header| header.table());
    if let Some(information) = module::Information::read(sinit, table) {
        let list = information.chipset_list as usize;
        places.extend([(table as usize, module::TABLE_LENGTH as usize), (table as usize + 16, 21), (list, 4 + 2 * 16)]);
    }
    places
}

/// The most elements of a list that are aimed at one by one.
const MOST_ELEMENTS: usize = 64;

fn policy_file(seen: &Seen, asked: &OsSinitData) -> Vec<Place> {
    let file = match policy::place(seen.parts.window, seen.platform.window_base, asked) {
        Ok(file) => file,
        Err(_) => return Vec::new(),
    };
    let offset = (asked.file.base - seen.platform.window_base) as usize;
    let unread = || vec![(0, policy::FIRST_LIST + policy::LIST_HEAD), (0, file.len())];
    let places = policy::lists(file).map_or_else(|_| unread(), |lists| list_fields(&lists));
    places.iter().map(|(at, length)| (offset + at, *length)).collect()
}

/// The head of the policy file and of its lists, each list whole, the heads of elements with the first digest, and counter and key size.
fn list_fields(lists: &[List]) -> Vec<Place> {
    let mut places = vec![(0, policy::FIRST_LIST)];
    let mut at = policy::FIRST_LIST;
    for list in lists {
        places.extend([(at, policy::LIST_HEAD), (at, list.bytes.len())]);
        places.extend(list.elements().take(MOST_ELEMENTS).map(|element| (element.at, element.bytes.len().min(60))));
        places.extend(list.signed.map(|signed| (signed.key_at - 4, 4)));
        at += list.bytes.len();
    }
    places
}
