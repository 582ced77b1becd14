//! The writer of policy files: both sides of each line, the order of 31, 32 and 33, what is written and what stays, and every stored file written
//! again. PolicyHash is held to a SHA-256 that is not the library's.

mod common;

use bleiwurzel::policy::{self, Digests, ElementDescription, Launch, ListDescription, RecordFields, Undescribed};
use bleiwurzel::{answer, Refusal, MOST_PAGES, RECORD_FIELDS, RECORD_LENGTH};
use common::*;

extern "C" {
    fn bleiwurzel_policy_write(
        numbers: *const u32,
        numbers_length: usize,
        bodies: *const u8,
        bodies_length: usize,
        fields: *const [u8; RECORD_FIELDS],
        file: *mut u8,
        room: usize,
        length: *mut [u64; 1],
        record: *mut [u8; RECORD_LENGTH],
    ) -> u32;
}

const PAINT: u8 = 0x5a;
/// More room than any file needs.
const ROOM: usize = policy::MOST + 7;

/// The number for a description, with so much room. Looks at all that is written: on a refusal every byte of the buffer stays, and length and
/// record are zeros; else the file is the one that the plain writer makes, the bytes past it stay, and the record is the fields and PolicyHash.
fn number(numbers: &[u32], bodies: &[u8], room: usize) -> u32 {
    let mut fields = [0; RECORD_FIELDS];
    (0xc1..).zip(&mut fields).for_each(|(value, byte)| *byte = value);
    written_with(numbers, bodies, &fields, room)
}

fn written_with(numbers: &[u32], bodies: &[u8], fields: &[u8; RECORD_FIELDS], room: usize) -> u32 {
    let mut buffer = vec![PAINT; room + 16];
    let (mut length, mut record) = ([1u64; 1], [PAINT; RECORD_LENGTH]);
    // SAFETY: every pointer is of its slice or array, with its length, and the buffer is longer than the room.
    let number = unsafe {
        bleiwurzel_policy_write(
            numbers.as_ptr(),
            numbers.len(),
            bodies.as_ptr(),
            bodies.len(),
            fields,
            buffer.as_mut_ptr(),
            room,
            &mut length,
            &mut record,
        )
    };
    let length = length[0] as usize;
    assert!(buffer[length..].iter().all(|byte| *byte == PAINT), "a byte past the file was written");
    if number != 0 {
        assert_eq!((length, record), (0, [0; RECORD_LENGTH]), "refused {number}");
        return number;
    }
    let (file, hash) = plainly_written(&unflattened(numbers, bodies));
    assert!(buffer[..length] == file, "another file than the plain one");
    assert_eq!((record[..RECORD_FIELDS].to_vec(), record[RECORD_FIELDS..].to_vec()), (fields.to_vec(), hash.to_vec()));
    assert!(policy::read(&file).is_ok());
    number
}

/// The numbers and bodies of a description, as include/bleiwurzel.h has them.
fn flattened(lists: &[ListDescription]) -> (Vec<u32>, Vec<u8>) {
    let element = |element: &ElementDescription| [element.kind, element.control, element.body.len() as u32];
    let list = |list: &ListDescription| {
        let elements = list.elements.iter().flat_map(element);
        [u32::from(list.version), list.elements.len() as u32].into_iter().chain(elements).collect::<Vec<u32>>()
    };
    let numbers = std::iter::once(lists.len() as u32).chain(lists.iter().flat_map(list)).collect();
    let bodies = lists.iter().flat_map(|list| &list.elements).flat_map(|element| element.body.iter().copied()).collect();
    (numbers, bodies)
}

/// The way back, for a description that was accepted.
fn unflattened(numbers: &[u32], bodies: &[u8]) -> Vec<ListDescription> {
    let (mut numbers, mut bodies) = (numbers.iter().copied(), bodies.iter().copied());
    let mut next = || numbers.next().expect("a number");
    let lists = next();
    let mut element = |kind: u32, control: u32, length: u32| {
        let body = bodies.by_ref().take(length as usize).collect();
        ElementDescription { kind, control, body }
    };
    (0..lists)
        .map(|_| {
            let (version, count) = (next() as u16, next());
            let elements = (0..count).map(|_| element(next(), next(), next())).collect();
            ListDescription { version, elements }
        })
        .collect()
}

fn of(lists: &[ListDescription], room: usize) -> u32 {
    let (numbers, bodies) = flattened(lists);
    number(&numbers, &bodies, room)
}

fn one_list(elements: Vec<ElementDescription>) -> Vec<ListDescription> {
    vec![ListDescription { version: 0x0201, elements }]
}

fn custom(length: usize) -> ElementDescription {
    ElementDescription::custom(0x8000_0001, (0..length).map(|i| i as u8).collect())
}

/// A launch element of this algorithm that says `count` and has digests of so many bytes in all.
fn launching(hash_alg: u16, count: u16, bytes: usize) -> ElementDescription {
    let launch = Launch { sinit_min_version: 3, reserved: 0xee, digests: Digests { hash_alg, count } };
    ElementDescription::launch(7, &launch, &vec![0x77; bytes])
}

const ALGORITHMS: [(u16, usize); 5] = [(0x0004, 20), (0x000b, 32), (0x000c, 48), (0x000d, 64), (0x0012, 32)];

#[test]
fn how_many_lists() {
    for count in 0..=10 {
        let lists = vec![ListDescription { version: 0x0201, elements: vec![custom(1)] }; count];
        assert_eq!(of(&lists, ROOM), if (1..=8).contains(&count) { 0 } else { 31 }, "{count} lists");
    }
}

#[test]
fn lists_that_are_not_there() {
    for count in [0, 2, 9, 0x101, u32::MAX] {
        assert_eq!(number(&[count, 0x0201, 0], &[], ROOM), 31, "{count} lists are said, and one is there");
    }
}

#[test]
fn versions_of_a_list() {
    for version in [0, 0x0002, 0x01ff, 0x0200, 0x0201, 0x0202, 0x0300, 0x1_0200, 0x1_0201, 0x0200_0000, u32::MAX] {
        let expected = if [0x0200, 0x0201].contains(&version) { 0 } else { 31 };
        assert_eq!(number(&[1, version, 0], &[], ROOM), expected, "version {version:#x}");
        assert_eq!(number(&[2, 0x0201, 0, version, 0], &[], ROOM), expected, "version {version:#x} of the second list");
    }
}

#[test]
fn types_of_an_element() {
    let body = launching(0x000b, 1, 32).body;
    for kind in [0, 1, 2, 3, 4, 0x0f, 0x10, 0x11, 0x12, 0x13, 0x14, 0x15, 0x103, 0x110, 0x1_0003, 0x1_0010, 0x0300_0000, u32::MAX]
    {
        let expected = if [3, 0x10].contains(&kind) { 0 } else { 31 };
        let element = ElementDescription { kind, control: u32::MAX, body: body.clone() };
        assert_eq!(of(&one_list(vec![element.clone()]), ROOM), expected, "type {kind:#x}");
        assert_eq!(of(&one_list(vec![custom(3), element]), ROOM), expected, "type {kind:#x} of the second element");
    }
    // A body by which an STM element would be of the grammar.
    let stm = ElementDescription { kind: 0x14, control: 0, body: stm_body(0x000b, 1, &[1; 32]) };
    assert_eq!(of(&one_list(vec![stm]), ROOM), 31);
}

#[test]
fn counts_of_digests() {
    for (digests, count) in [0, 1, 2, 3, 40].into_iter().flat_map(|digests| (0..=41u16).map(move |count| (digests, count))) {
        let expected = if usize::from(count) == digests { 0 } else { 31 };
        let found = ALGORITHMS.map(|(hash_alg, length)| of(&one_list(vec![launching(hash_alg, count, digests * length)]), ROOM));
        assert_eq!(found, [expected; 5], "{count} are said of {digests}");
    }
}

#[test]
fn lengths_of_digests() {
    for (hash_alg, length) in ALGORITHMS {
        let found = [length - 1, length, length + 1].map(|bytes| of(&one_list(vec![launching(hash_alg, 1, bytes)]), ROOM));
        assert_eq!(found, [31, 0, 31], "{hash_alg:#x}: one of {length} bytes, and of one less and more");
    }
}

/// Count times length is no number of 16 bits: 2,048 digests of 32 bytes are 65,536 bytes, which 16 bits have as 0.
#[test]
fn digests_past_16_bits() {
    assert_eq!(of(&one_list(vec![launching(0x000b, 2048, 0)]), ROOM), 31);
    assert_eq!(of(&one_list(vec![launching(0x000b, 0, 65_536)]), ROOM), 31);
    assert_eq!(of(&one_list(vec![launching(0x000b, 2048, 65_536)]), ROOM), 32);
}

#[test]
fn unknown_algorithms() {
    let known = ALGORITHMS.map(|(hash_alg, _)| hash_alg);
    for hash_alg in (0..=0x20).chain([0x0400, 0x0b00, 0x010b, 0x8004, 0xffff]) {
        let expected = if known.contains(&hash_alg) { 0 } else { 31 };
        assert_eq!(of(&one_list(vec![launching(hash_alg, 0, 0)]), ROOM), expected, "{hash_alg:#x}");
    }
}

/// A launch body that ends before its digests do.
#[test]
fn short_bodies() {
    let body = launching(0x000b, 0, 0).body;
    for length in 0..=body.len() {
        let element = |kind| ElementDescription { kind, control: 0, body: body[..length].to_vec() };
        assert_eq!(of(&one_list(vec![element(0x10)]), ROOM), if length == 6 { 0 } else { 31 }, "type 0x10, {length} bytes");
        assert_eq!(of(&one_list(vec![element(3)]), ROOM), 0, "type 3, {length} bytes");
    }
}

/// Two lists with elements of both types, of which one is empty.
fn several() -> Vec<ListDescription> {
    let second = ListDescription { version: 0x0200, elements: vec![custom(0), launching(0x0004, 2, 40)] };
    let mut lists = one_list(vec![launching(0x000b, 1, 32), custom(5)]);
    lists.extend([second, ListDescription { version: 0x0201, elements: Vec::new() }]);
    lists
}

#[test]
fn numbers_that_are_missing_or_too_many() {
    let (numbers, bodies) = flattened(&several());
    assert_eq!(number(&numbers, &bodies, ROOM), 0);
    (0..numbers.len()).for_each(|end| assert_eq!(number(&numbers[..end], &bodies, ROOM), 31, "{end} numbers"));
    let more = [0, 3, 0x0201].map(|more| number(&[&numbers[..], &[more]].concat(), &bodies, ROOM));
    assert_eq!(more, [31; 3], "a number more");
    assert_eq!([number(&[], &[], ROOM), number(&[0], &[], ROOM)], [31; 2]);
}

#[test]
fn bodies_that_are_missing_or_too_many() {
    let (numbers, bodies) = flattened(&several());
    (0..bodies.len()).for_each(|end| assert_eq!(number(&numbers, &bodies[..end], ROOM), 31, "{end} bytes of bodies"));
    assert_eq!(number(&numbers, &[&bodies[..], &[0]].concat(), ROOM), 31, "a byte of bodies more");
}

/// Each number but a control is also wrong if it is one greater or less, save that a list may be of the other version.
#[test]
fn numbers_that_are_one_off() {
    let (numbers, bodies) = flattened(&several());
    let controls = [3, 6, 11, 14].map(|element| element + 1);
    for (at, by) in (0..numbers.len()).flat_map(|at| [(at, u32::MAX), (at, 1)]) {
        let mut numbers = numbers.clone();
        numbers[at] = numbers[at].wrapping_add(by);
        let right = controls.contains(&at) || [0x0200, 0x0201].contains(&numbers[at]);
        assert_eq!(number(&numbers, &bodies, ROOM), if right { 0 } else { 31 }, "number {at} as {:#x}", numbers[at]);
    }
}

extern "C" {
    fn mmap(at: *mut u8, length: usize, protection: i32, flags: i32, file: i32, offset: i64) -> *mut u8;
    fn munmap(at: *mut u8, length: usize) -> i32;
}

/// So many zeros, which may only be read. They take no memory where nobody reads them.
struct Zeros(*mut u8, usize);

impl Zeros {
    fn new(length: usize) -> Self {
        // PROT_READ, and MAP_PRIVATE, MAP_ANONYMOUS and MAP_NORESERVE, as Linux has them.
        let (read, flags) = (1, 0x02 | 0x20 | 0x4000);
        // SAFETY: new memory at an address of the system's choice.
        let first = unsafe { mmap(std::ptr::null_mut(), length, read, flags, -1, 0) };
        let error = std::io::Error::last_os_error();
        assert!(first as isize != -1, "no place for {length} bytes, which this test needs though it does not fill them: {error}");
        Zeros(first, length)
    }

    fn bytes(&self, length: usize) -> &[u8] {
        assert!(length <= self.1);
        // SAFETY: so many bytes are there, of a mapping that lasts as long as this and is never written.
        unsafe { std::slice::from_raw_parts(self.0, length) }
    }
}

impl Drop for Zeros {
    fn drop(&mut self) {
        // SAFETY: the whole mapping, to which no slice is left.
        unsafe { munmap(self.0, self.1) };
    }
}

/// The number of a description of type 3 elements that are all there, by the lengths of each list's bodies.
fn of_lengths(zeros: &Zeros, lists: &[&[u64]]) -> u32 {
    let element = |length: &u64| [3, 0, u32::try_from(*length).expect("32 bits")];
    let list = |lengths: &&[u64]| [vec![0x0201, lengths.len() as u32], lengths.iter().flat_map(element).collect()].concat();
    let numbers: Vec<u32> = std::iter::once(lists.len() as u32).chain(lists.iter().flat_map(list)).collect();
    let bodies = lists.iter().copied().flatten().sum::<u64>();
    number(&numbers, zeros.bytes(bodies as usize), ROOM)
}

/// What the size of an element, and of a list's elements, counts fits into 32 bits, or it is 31; a file past 32 bits is only too long.
#[test]
fn sizes_past_32_bits() {
    const OVER: u64 = 1 << 32;
    let zeros = Zeros::new(OVER as usize + 64);
    for (lists, expected) in [
        (&[&[OVER - 14][..]][..], 32),
        (&[&[OVER - 13]], 32),
        (&[&[OVER - 12]], 31),
        (&[&[OVER - 11]], 31),
        (&[&[OVER - 1]], 31),
        (&[&[OVER - 25 - 7, 7]], 32),
        (&[&[OVER - 24 - 7, 7]], 31),
        (&[&[1 << 31, OVER / 2 - 25]], 32),
        (&[&[1 << 31, OVER / 2 - 24]], 31),
        (&[&[1 << 31, 1 << 31]], 31),
        (&[&[7, OVER - 13]], 31),
        // All sizes fit, and with 32 bits that of the file would be a small one.
        (&[&[1 << 31], &[1 << 31]], 32),
        (&[&[7], &[OVER - 13]], 32),
        (&[&[7], &[OVER - 12]], 31),
        (&[&[OVER - 12], &[7]], 31),
    ] {
        assert_eq!(of_lengths(&zeros, lists), expected, "{lists:x?}");
    }
}

#[test]
fn elements_that_are_not_there() {
    for elements in [1, 2, 0x5555_5556, u32::MAX] {
        assert_eq!(number(&[1, 0x0201, elements], &[], ROOM), 31, "{elements} elements are said, and none is there");
    }
}

/// Lengths of bodies that are not there, also where with 32 bits they make as many as are.
#[test]
fn long_bodies_that_are_not_there() {
    for length in [u32::MAX, u32::MAX - 11, u32::MAX - 12, 1 << 31] {
        let alone = [3, 0x10].map(|kind| number(&[1, 0x0201, 1, kind, 0, length], &[1; 20], ROOM));
        assert_eq!(alone, [31; 2], "{length:#x}");
        let rest = 4u32.wrapping_sub(length);
        assert_eq!(number(&[1, 0x0201, 2, 3, 0, length, 3, 0, rest], &[1; 4], ROOM), 31, "{length:#x} and {rest:#x} are 4");
    }
}

/// How many bytes of a custom body make a file of this size.
fn filling(size: usize) -> usize {
    size - policy::FIRST_LIST - policy::LIST_HEAD - policy::ELEMENT_HEAD
}

#[test]
fn the_size_of_a_file() {
    for (size, expected) in [(policy::MOST - 1, 0), (policy::MOST, 0), (policy::MOST + 1, 32), (2 * policy::MOST, 32)] {
        assert_eq!(of(&one_list(vec![custom(filling(size))]), ROOM), expected, "{size} bytes");
        let halves = vec![custom(filling(size) / 2), custom(filling(size) - filling(size) / 2 - 12)];
        assert_eq!(of(&one_list(halves), ROOM), expected, "{size} bytes in two elements");
    }
    // The most SHA-256 digests that a launch element has place for, as the text of 32 says.
    assert_eq!(of(&one_list(vec![launching(0x000b, 2046, 2046 * 32)]), ROOM), 0);
    assert_eq!(of(&one_list(vec![launching(0x000b, 2047, 2047 * 32)]), ROOM), 32);
}

/// Elements and lists without a body count too: 5,457 elements of 12 bytes are 65,484.
#[test]
fn the_size_of_what_is_empty() {
    let most = filling(policy::MOST) / 12 + 1;
    let elements = [most, most + 1].map(|count| of(&one_list(vec![custom(0); count]), ROOM));
    assert_eq!(elements, [0, 32], "{most} elements, and one more");
    let mut lists = one_list(vec![custom(filling(policy::MOST - 8))]);
    lists.push(ListDescription { version: 0x0200, elements: Vec::new() });
    assert_eq!(of(&lists, ROOM), 0);
    lists.push(ListDescription { version: 0x0200, elements: Vec::new() });
    assert_eq!(of(&lists, ROOM), 32);
}

#[test]
fn the_room_of_the_buffer() {
    for lists in [several(), one_list(Vec::new()), one_list(vec![custom(filling(policy::MOST))])] {
        let size = plainly_written(&lists).0.len();
        let found = [0, 1, size - 1, size, size + 1].map(|room| of(&lists, room));
        assert_eq!(found, [33, 33, 33, 0, 0], "{size} bytes into 0, 1, one less, as many and one more");
    }
}

#[test]
fn in_order_31_32_33() {
    let long = one_list(vec![custom(policy::MOST)]);
    let outside = |mut lists: Vec<ListDescription>| {
        lists[0].version = 0x0300;
        lists
    };
    for room in [0, 1, policy::MOST, ROOM] {
        assert_eq!(of(&outside(long.clone()), room), 31, "outside the grammar, too long, room for {room}");
        assert_eq!(of(&long, room), 32, "too long, room for {room}");
        assert_eq!(of(&outside(several()), room), 31, "outside the grammar, room for {room}");
    }
    assert_eq!(of(&several(), 0), 33);
    // What is outside the grammar stands behind all that makes the file too long.
    let mut behind = one_list(vec![custom(policy::MOST), launching(0x000b, 1, 31)]);
    assert_eq!(of(&behind, ROOM), 31);
    behind[0].elements[1] = launching(0x000b, 1, 32);
    behind.extend(vec![ListDescription { version: 0x0201, elements: Vec::new() }; 8]);
    assert_eq!(of(&behind, ROOM), 31, "a ninth list behind what is too long");
    behind.pop();
    assert_eq!(of(&behind, ROOM), 32);
}

/// The fields of the record are copied, whatever they hold.
#[test]
fn fields_of_the_record() {
    let (numbers, bodies) = flattened(&several());
    let alike = [0, 1, 0x5a, 0x80, 0xff].map(|value| written_with(&numbers, &bodies, &[value; RECORD_FIELDS], ROOM));
    assert_eq!(alike, [0; 5]);
    for at in 0..RECORD_FIELDS {
        let mut fields = RecordFields::default().bytes();
        fields[at] ^= 0xff;
        assert_eq!(written_with(&numbers, &bodies, &fields, ROOM), 0, "byte {at}");
    }
}

/// The number by plain rules over the numbers, in the order of the request.
fn plain_number(numbers: &[u32], bodies: &[u8], room: usize) -> u32 {
    match plain_size(numbers, bodies) {
        None => 31,
        Some(size) if size > policy::MOST as u64 => 32,
        Some(size) if size > room as u64 => 33,
        Some(_) => 0,
    }
}

/// What is left of a description that is read by plain rules.
struct Plain<'a> {
    numbers: &'a [u32],
    bodies: &'a [u8],
}

impl Plain<'_> {
    fn next(&mut self) -> Option<u32> {
        let (first, rest) = self.numbers.split_first()?;
        self.numbers = rest;
        Some(*first)
    }

    /// The size of a list, where it is of the grammar.
    fn list(&mut self) -> Option<u64> {
        self.next().filter(|version| [0x0200, 0x0201].contains(version))?;
        let elements = self.next()?;
        (0..elements).try_fold(8, |size, _| Some(size + self.element()?))
    }

    fn element(&mut self) -> Option<u64> {
        let (kind, _, length) = (self.next()?, self.next()?, self.next()?);
        let body = self.bodies.get(..length as usize)?;
        self.bodies = &self.bodies[length as usize..];
        match kind {
            3 => {}
            0x10 => plain_launch(body)?,
            _ => return None,
        }
        Some(12 + u64::from(length))
    }
}

/// The size of the file, where the description is of the grammar.
fn plain_size(numbers: &[u32], bodies: &[u8]) -> Option<u64> {
    let mut left = Plain { numbers, bodies };
    let lists = left.next().filter(|lists| (1..=8).contains(lists))?;
    let size = (0..lists).try_fold(36, |size, _| Some(size + left.list()?))?;
    (left.numbers.is_empty() && left.bodies.is_empty()).then_some(size)
}

fn plain_launch(body: &[u8]) -> Option<()> {
    let digests = body.get(6..)?;
    let (hash_alg, count) = (u16::from_le_bytes([body[2], body[3]]), usize::from(u16::from_le_bytes([body[4], body[5]])));
    let (_, length) = ALGORITHMS.iter().find(|(known, _)| *known == hash_alg)?;
    (digests.len() == count * length).then_some(())
}

/// Numbers that look random and are the same in each run.
struct Sequence(u64);

impl Sequence {
    fn next(&mut self, below: u64) -> u64 {
        self.0 = self.0.wrapping_mul(6_364_136_223_846_793_005).wrapping_add(1_442_695_040_888_963_407);
        (self.0 >> 33) % below
    }

    fn element(&mut self) -> ElementDescription {
        let (hash_alg, length) = ALGORITHMS[self.next(5) as usize];
        let count = self.next(4) as usize;
        let mut element = match self.next(3) {
            0 => custom(self.next(50) as usize),
            1 => custom(self.next(18_000) as usize),
            _ => launching(hash_alg, count as u16, count * length),
        };
        element.control = self.next(1 << 31) as u32 * 2;
        element
    }

    fn lists(&mut self) -> Vec<ListDescription> {
        let lists = 1 + self.next(8);
        let list = |sequence: &mut Sequence| {
            let (version, elements) = (0x0200 + sequence.next(2) as u16, sequence.next(6));
            ListDescription { version, elements: (0..elements).map(|_| sequence.element()).collect() }
        };
        (0..lists).map(|_| list(self)).collect()
    }
}

/// Many descriptions, as they are and with a number or a byte changed, against the plain rules; all four numbers are met.
#[test]
fn many_descriptions_by_plain_rules() {
    let mut sequence = Sequence(7);
    let mut met = [0; 4];
    for _ in 0..1500 {
        let (mut numbers, mut bodies) = flattened(&sequence.lists());
        let (at, by) = (sequence.next(numbers.len() as u64) as usize, sequence.next(3) as u32);
        match sequence.next(4) {
            0 => numbers[at] = numbers[at].wrapping_add(by).wrapping_sub(1),
            1 if !bodies.is_empty() => {
                let at = sequence.next(bodies.len() as u64) as usize;
                bodies[at] ^= 1 << sequence.next(8);
            }
            _ => {}
        }
        let room = [ROOM, ROOM, sequence.next(4000) as usize][sequence.next(3) as usize];
        let expected = plain_number(&numbers, &bodies, room);
        assert_eq!(number(&numbers, &bodies, room), expected, "{numbers:x?}, room for {room}");
        met[expected.saturating_sub(30) as usize] += 1;
        if expected == 0 {
            let lists = unflattened(&numbers, &bodies);
            let written = policy::write(&lists, &[0; RECORD_FIELDS]).expect("a file");
            assert_eq!(policy::descriptions(&written.file), Ok(lists), "the reading gives the description back");
        }
    }
    assert!(met.iter().all(|count| *count > 20), "{met:?}");
}

/// Every stored file that has a description is written again byte by byte, into a buffer of just its size too, and its record is right.
#[test]
fn every_stored_file_is_written_again() {
    let files = described_files();
    let image = image(&Shape::default());
    let (mut alone, mut of_captures) = (0, 0);
    for Stored { name, file, lists, record } in &files {
        let (numbers, bodies) = flattened(lists);
        assert_eq!(number(&numbers, &bodies, file.len()), 0, "{name}");
        assert_eq!(number(&numbers, &bodies, file.len() - 1), 33, "{name}");
        let fields = record.as_ref().map_or([0xa5; RECORD_FIELDS], |(record, _)| fields_of(record));
        let written = policy::write(lists, &fields).expect("a file");
        assert!(written.file == *file, "{name}: other bytes");
        let (number, _) = judged(&image, lists);
        assert_eq!(number, 29, "{name}: rules 26 to 28 hold, and no list names this image");
        match record {
            None => alone += 1,
            Some((record, right)) => {
                of_captures += 1;
                assert_eq!(written.record[..] == record[..], *right, "{name}: the record");
            }
        }
    }
    assert_eq!((alone, of_captures), (8, 22), "how many files take part");
}

fn fields_of(record: &[u8]) -> [u8; RECORD_FIELDS] {
    record[..RECORD_FIELDS].try_into().expect("a record")
}

/// tboot's own record, from its own policy file and the fields that it was asked for.
#[test]
fn the_records_of_tboot() {
    for name in ["plain-0x200", "plain-0x201"] {
        let file = std::fs::read(top().join(format!("crates/policy_show/data/{name}.data"))).expect("a policy file");
        let path = top().join(format!("rust/bleiwurzel/tests/data/tboot/{name}.pol"));
        let record = std::fs::read(path).expect("a record");
        let lists = policy::descriptions(&file).expect("a description");
        let fields = RecordFields { sinit_min_version: 1, ..RecordFields::default() };
        let written = policy::write(&lists, &fields.bytes()).expect("a file");
        assert!(written.file == file, "{name}");
        assert_eq!(written.record[..], record[..], "{name}");
    }
}

/// The check's number, and the list, for an image under the policy file and the record that are written of these lists.
fn judged(image: &Image, lists: &[ListDescription]) -> (u32, u32) {
    let written = policy::write(lists, &RecordFields::default().bytes()).expect("a file");
    let mut image = with_file(image, &written.file, &[0; 32]);
    let mut pages = vec![0; MOST_PAGES];
    assert_eq!(answer(&image.parts(), &image.platform, &mut pages).number, 28, "another PolicyHash");
    image.record = written.record.to_vec();
    let given = answer(&image.parts(), &image.platform, &mut pages);
    (given.number, given.list)
}

/// The check permits an image under what was written for it: the record by rules 23 to 25, the file by 26 and 27, PolicyHash by 28, and the list.
#[test]
fn the_check_takes_what_was_written() {
    let image = image(&Shape::default());
    let digest = plain_sha256::digest_in_parts(&image.bytes(), 0);
    let launch = Launch { sinit_min_version: 5, reserved: 0, digests: Digests { hash_alg: policy::SHA256, count: 1 } };
    let mut lists = several();
    assert_eq!(judged(&image, &lists).0, 29, "no list names the image");
    lists.push(ListDescription { version: 0x0201, elements: vec![ElementDescription::launch(0, &launch, &digest), custom(9)] });
    assert_eq!(judged(&image, &lists), (0, 3));
}

#[test]
fn through_the_crate() {
    let fields = RecordFields::default().bytes();
    let refused = |number| Refusal { number, place: 0 };
    let (lists, outside) = (several(), one_list(vec![launching(0x000b, 2, 32)]));
    let written = policy::write(&lists, &fields).expect("a file");
    let size = written.file.len();
    let mut buffer = vec![PAINT; size + 9];
    let placed = policy::write_into(&lists, &fields, &mut buffer).expect("room");
    assert_eq!((placed.length, placed.record), (size, written.record));
    assert!(buffer[..size] == written.file && buffer[size..] == [PAINT; 9]);
    let mut small = vec![PAINT; size - 1];
    assert_eq!(policy::write_into(&lists, &fields, &mut small), Err(refused(33)));
    assert_eq!(policy::write_into(&outside, &fields, &mut small), Err(refused(31)));
    assert_eq!(policy::write_into(&one_list(vec![custom(policy::MOST)]), &fields, &mut small), Err(refused(32)));
    assert!(small.iter().all(|byte| *byte == PAINT));
    assert_eq!(policy::write_into(&lists, &fields, &mut []), Err(refused(33)));
    assert_eq!(policy::write(&[], &fields), Err(refused(31)));
    assert_eq!(policy::write(&one_list(vec![custom(policy::MOST)]), &fields), Err(refused(32)));
}

/// Of an accepted file without a description the first list or element is named that has none; of a refused string the refusal is handed on.
#[test]
fn what_has_no_description() {
    let (mut signed, mut other, mut refused) = (0, 0, 0);
    for (name, file) in policy_files() {
        match policy::descriptions(&file) {
            Ok(_) => {}
            Err(Undescribed::Refused(refusal)) => {
                refused += 1;
                assert_eq!(policy::read(&file), Err(refusal), "{name}");
            }
            Err(Undescribed::Signed { list }) => {
                signed += 1;
                assert!(policy::list(&file, list).expect("a list").signed.is_some(), "{name}");
            }
            Err(Undescribed::OtherType { list, element, kind }) => {
                other += 1;
                let found = policy::element(&file, list, element).expect("an element");
                assert!(found.kind == kind && ![3, 0x10].contains(&kind), "{name}");
            }
        }
    }
    assert_eq!((signed, other, refused), (32, 29, 91), "how many files take part");
}

/// The first in file order: an element before a signed list, and the other way round.
#[test]
fn the_first_that_has_no_description() {
    let (stm, unknown) = (stm(&[[1; 32]]), element(0x13, b"x"));
    let named = |lists: &[Vec<u8>]| policy::descriptions(&policy_file(lists).0).expect_err("no description");
    let first = named(&[list(&[launch(0, &[]), stm.clone()]), signed(&[], 256)]);
    assert_eq!(first, Undescribed::OtherType { list: 0, element: 1, kind: 0x14 });
    assert_eq!(named(&[list(&[]), signed(&[stm], 256), list(&[unknown.clone()])]), Undescribed::Signed { list: 1 });
    let tboot = named(&[list(&[]), list(&[element(3, b""), unknown])]);
    let said =
        "element 1 of list 1 has type 0x13, as tboot's tools write custom elements, and only types 0x10 and 3 have a description";
    assert_eq!(tboot.to_string(), said);
}
