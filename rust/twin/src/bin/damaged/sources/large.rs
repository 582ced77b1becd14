//! Images of 4,096 pages and of the most pages: under ANY and under lists, with signatures that are verified, in pages that do not follow one another, with
//! reserved ranges, and with a place too few.

use crate::subject::{Subject, Turns};
use inputs::{MOST_PAGES, MOST_RESERVED};
use plain_sha256::digest_in_parts;
use samples::*;

/// The check of a permitted image takes about 50 ms and 200 ms on each side.
const LARGE: Turns = Turns { times: 1, every: 4 };
const LARGEST: Turns = Turns { times: 1, every: 16 };
const PAGES: usize = 4096;

pub fn all() -> Vec<Subject> {
    let of = |pages, first| image(&Shape { pages, first, ..Shape::default() });
    let large = |name, image, places| Subject::of_image(name, image, places, LARGE);
    let largest = |name, image, places| Subject::of_image(name, image, places, LARGEST);
    vec![
        large("4,096 pages", of(PAGES, 0), PAGES),
        large("4,096 pages under a list, from linear page 100 on", under_list(&of(PAGES, 100)), PAGES + 5),
        large("4,096 pages under a signed list and an unsigned one", under_signed(&of(PAGES, 0)), PAGES),
        large("4,096 pages with free ones between, under a list", under_list(&apart()), PAGES),
        large("4,096 pages with reserved ranges between", with_ranges(), MOST_PAGES),
        large("4,096 pages and 4,095 places", of(PAGES, 0), PAGES - 1),
        largest("the most pages", of(MOST_PAGES, 300), MOST_PAGES),
        largest("the most pages under a signed list and an unsigned one", under_signed(&of(MOST_PAGES, 0)), MOST_PAGES),
        large("the most pages and a place too few", under_list(&of(MOST_PAGES, 0)), MOST_PAGES - 1),
    ]
}

/// Two lists that name the image: one with a signature that is worth verifying, though it does not verify, since the modulus is odd and the signature below
/// it; and an unsigned one.
fn under_signed(image: &Image) -> Image {
    let named = launch(0, &[digest_in_parts(&image.bytes(), 0)]);
    let mut signed = SignedList(signed(std::slice::from_ref(&named), 384));
    let (key, signature) = (signed.key_range(), signed.signature_range());
    signed.0[key.start] |= 1;
    signed.0[key.end - 1] |= 0x80;
    signed.0[signature.end - 1] &= 0x7f;
    with_lists(image, &[signed.0, list(&[named])])
}

/// Pages with a free one behind each.
fn apart() -> Image {
    let mut image = image(&Shape { pages: PAGES, spare: PAGES * PAGE, ..Shape::default() });
    let pages: Vec<usize> = (0..PAGES).map(|k| image.content + 2 * k).collect();
    let first_table = image.content - PAGES / 512;
    pages.iter().enumerate().for_each(|(k, page)| image.entry(first_table + k / 512, k % 512, *page));
    image.maps(0, &pages);
    image
}

/// The same with some of the free pages reserved.
fn with_ranges() -> Image {
    let mut image = apart();
    let free = |k: usize| (image.listed[k * PAGES / MOST_RESERVED] + PAGE as u64, PAGE as u64);
    let ranges: Vec<Region> = (0..MOST_RESERVED).map(free).collect();
    image.reserve(&ranges);
    image
}
