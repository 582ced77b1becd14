//! How much stack the library's functions take. Each is called on a stack of its own that was painted before, and the deepest byte that has
//! changed counts. A bound lies between what the library takes and what it would take with a schedule of 64 words in the digest, or with the
//! round constants on the stack; docs/PERFORMANCE.md has the figures. What the check takes does not depend on the size of the image.

#![cfg(all(target_arch = "x86_64", target_os = "linux"))]

mod common;

use bleiwurzel::{capture, policy, MOST_PAGES, MOST_RESERVED, MOST_TABLES, MOST_WINDOW, RECORD_FIELDS, RECORD_LENGTH};
use common::*;
use std::arch::asm;

extern "C" {
    fn bleiwurzel_sha256(message: *const u8, message_length: usize, digest: *mut [u8; 32]);
    fn bleiwurzel_check_capture(
        capture: *const u8,
        capture_length: usize,
        pages: *mut u64,
        places: usize,
        counts: *mut [u32; 2],
        place: *mut [u32; 1],
        digest: *mut [u8; 32],
    ) -> u32;
    /// Only the addresses of these are used; include/bleiwurzel.h has the arguments.
    fn bleiwurzel_check();
    fn bleiwurzel_policy_write();
}

const SIZE: usize = 1 << 16;

#[repr(C, align(16))]
struct Stack([u8; SIZE]);

/// How many arguments are handed over in registers; the others stand on the stack.
const REGISTERS: usize = 6;

/// How many bytes from the top down to the deepest that a call has changed, where every byte was `paint`.
///
/// # Safety
/// The function takes these arguments, of which there may be more than it has, and needs less than `SIZE` bytes of stack.
unsafe fn taken(stack: &mut Stack, paint: u8, function: *const (), arguments: &[usize]) -> usize {
    stack.0.fill(paint);
    let further: Vec<u8> = arguments[REGISTERS..].iter().flat_map(|argument| argument.to_ne_bytes()).collect();
    let above = (further.len() + 15) / 16 * 16;
    stack.0[SIZE - above..][..further.len()].copy_from_slice(&further);
    let top = stack.0.as_mut_ptr_range().end.sub(above);
    // The callee leaves r12 as it is, so the stack before is back at the end.
    asm!(
        "mov r12, rsp",
        "mov rsp, {top}",
        "call {function}",
        "mov rsp, r12",
        top = in(reg) top,
        function = in(reg) function,
        in("rdi") arguments[0],
        in("rsi") arguments[1],
        in("rdx") arguments[2],
        in("rcx") arguments[3],
        in("r8") arguments[4],
        in("r9") arguments[5],
        out("r12") _,
        clobber_abi("C"),
    );
    let changed = stack.0[..SIZE - above].iter().position(|&byte| byte != paint);
    SIZE - above - changed.expect("the call has written nothing")
}

/// The most that a call takes. A byte of the deepest frame may happen to be the paint, but not both paints.
unsafe fn deepest(stack: &mut Stack, function: *const (), arguments: &[usize]) -> usize {
    taken(stack, 0x5a, function, arguments).max(taken(stack, 0xa5, function, arguments))
}

#[test]
fn the_digest() {
    const AT_MOST: usize = 704;
    let mut stack = Box::new(Stack([0; SIZE]));
    let message = vec![0x61; 4097];
    let mut most = 0;
    for length in [0, 1, 55, 56, 63, 64, 65, 119, 120, 128, 4096, 4097] {
        let mut digest = [0u8; 32];
        let arguments = [message.as_ptr() as usize, length, &mut digest as *mut _ as usize, 0, 0, 0];
        // SAFETY: the arguments are as include/bleiwurzel.h says, and the bound is far below the size.
        most = most.max(unsafe { deepest(&mut stack, bleiwurzel_sha256 as *const (), &arguments) });
        assert_eq!(digest, bleiwurzel::sha256(&message[..length]), "length {length}");
    }
    println!("the digest takes {most} bytes of stack");
    assert!(most <= AT_MOST, "the digest takes {most} bytes of stack, more than {AT_MOST}");
}

#[test]
fn the_check_of_every_stored_capture() {
    const AT_MOST: usize = 5264;
    let mut stack = Box::new(Stack([0; SIZE]));
    let mut most = 0;
    for (name, bytes) in captures() {
        let given = bleiwurzel::answer_capture(&bytes, &mut vec![0; capture::PLACES]);
        let (mut pages, mut counts, mut place, mut digest) = (vec![0u64; capture::PLACES], [0u32; 2], [0u32; 1], [0u8; 32]);
        let arguments = [
            bytes.as_ptr() as usize,
            bytes.len(),
            pages.as_mut_ptr() as usize,
            pages.len(),
            &mut counts as *mut _ as usize,
            &mut place as *mut _ as usize,
            &mut digest as *mut _ as usize,
        ];
        // SAFETY: as above.
        most = most.max(unsafe { deepest(&mut stack, bleiwurzel_check_capture as *const (), &arguments) });
        assert_eq!((place[0], digest), (given.place, given.digest), "{name}");
    }
    println!("the check of a capture takes {most} bytes of stack");
    assert!(most <= AT_MOST, "the check of a capture takes {most} bytes of stack, more than {AT_MOST}");
}

/// What the check of an image takes that is permitted under ANY.
fn check_takes(stack: &mut Stack, image: &Image) -> usize {
    let (parts, platform) = (image.parts(), image.platform);
    let (mut pages, mut counts, mut place, mut digest) = (vec![0u64; image.places], [0u32; 2], [0u32; 1], [0u8; 32]);
    let lent = [parts.window, parts.heap, parts.sinit, parts.record, parts.stm].map(|part| [part.as_ptr() as usize, part.len()]);
    let numbers = [platform.window_base, platform.heap_base, platform.sinit_base, platform.dpr_base, platform.dpr_size];
    let chipset = [platform.vendor, platform.device, platform.revision];
    let mut arguments = lent.concat();
    arguments.extend(numbers.map(|number| number as usize));
    arguments.push(platform.acram_capacity as usize);
    arguments.extend(chipset.map(usize::from));
    let (count, reserved) = reserved_numbers(&platform.reserved);
    arguments.extend([count as usize, reserved.as_ptr() as usize]);
    arguments.extend([pages.as_mut_ptr() as usize, pages.len()]);
    arguments.extend([&mut counts as *mut _ as usize, &mut place as *mut _ as usize, &mut digest as *mut _ as usize]);
    // SAFETY: as above.
    let taken = unsafe { deepest(stack, bleiwurzel_check as *const (), &arguments) };
    assert_eq!(counts[0] as usize, image.listed.len(), "a permission");
    assert_eq!(pages[..image.listed.len()], image.listed);
    taken
}

/// Two pages, and as many pages, tables, reserved ranges and bytes of the window as there may be.
#[test]
fn the_check_of_a_small_and_of_the_largest_image() {
    const AT_MOST: usize = 3056;
    let mut stack = Box::new(Stack([0; SIZE]));
    let small = check_takes(&mut stack, &image(&Shape::default()));
    let full = Shape { pages: MOST_PAGES, empty_tables: MOST_TABLES - MOST_PAGES / 512 - 2, ..Shape::default() };
    let spare = MOST_WINDOW - (MOST_PAGES + MOST_TABLES) * PAGE;
    let mut large = image(&Shape { spare, ..full });
    large.reserve(&[(0x3000_0000, 0x1000); MOST_RESERVED]);
    assert_eq!((large.window.len(), large.content), (MOST_WINDOW, MOST_TABLES), "all limits are reached");
    let large = check_takes(&mut stack, &large);
    println!("the check takes {small} bytes of stack for two pages, {large} for {MOST_PAGES}");
    assert_eq!(small, large, "the stack for two pages, and for the most");
    assert!(large <= AT_MOST, "the check of an image takes {large} bytes of stack, more than {AT_MOST}");
}

/// What the writer of policy files takes for one list of a custom element with this body.
fn writer_takes(stack: &mut Stack, body: &[u8]) -> usize {
    let numbers = [1u32, 0x0201, 1, policy::CUSTOM, 0, body.len() as u32];
    let (fields, mut file) = ([0u8; RECORD_FIELDS], vec![0u8; policy::MOST]);
    let (mut length, mut record) = ([0u64; 1], [0u8; RECORD_LENGTH]);
    let arguments = [
        numbers.as_ptr() as usize,
        numbers.len(),
        body.as_ptr() as usize,
        body.len(),
        fields.as_ptr() as usize,
        file.as_mut_ptr() as usize,
        file.len(),
        &mut length as *mut _ as usize,
        &mut record as *mut _ as usize,
    ];
    // SAFETY: as above.
    let taken = unsafe { deepest(stack, bleiwurzel_policy_write as *const (), &arguments) };
    assert_eq!(length[0] as usize, policy::FIRST_LIST + policy::LIST_HEAD + policy::ELEMENT_HEAD + body.len(), "a file");
    taken
}

/// A small policy file and the largest: nothing of the file is on the stack.
#[test]
fn the_writer_of_a_small_and_of_the_largest_file() {
    const AT_MOST: usize = 1424;
    let mut stack = Box::new(Stack([0; SIZE]));
    let most = policy::MOST - policy::FIRST_LIST - policy::LIST_HEAD - policy::ELEMENT_HEAD;
    let [small, large] = [100, most].map(|length| writer_takes(&mut stack, &vec![0x61; length]));
    println!("the writer takes {small} bytes of stack for a small file, {large} for the largest");
    assert_eq!(small, large, "the stack for a small file, and for the largest");
    assert!(large <= AT_MOST, "the writer takes {large} bytes of stack, more than {AT_MOST}");
}
