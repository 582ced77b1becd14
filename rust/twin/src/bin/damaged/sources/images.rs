//! Small images: each kind of policy, of regions, of tables and of modules, with as many places in the page list as are needed, more, and too few.

use crate::subject::{Subject, Turns};
use inputs::{MOST_HEAP, MOST_PAGES, MOST_RESERVED, MOST_TABLES, MOST_WINDOW};
use plain_sha256::digest_in_parts;
use samples::*;
use twin::policy;

/// They are few beside the captures, and so have more copies in a round.
const OFTEN: Turns = Turns { times: 15, every: 1 };
/// Under lists, most of all: few captures are permitted by one.
const MOST_OFTEN: Turns = Turns { times: 50, every: 1 };
/// Those whose reading or copying takes longer.
const SELDOM: Turns = Turns { times: 1, every: 2 };

fn of(shape: Shape) -> Image {
    image(&shape)
}

fn plain() -> Image {
    of(Shape::default())
}

fn digest(image: &Image) -> [u8; 32] {
    digest_in_parts(&image.bytes(), 0)
}

pub fn all() -> Vec<Subject> {
    let mut sources = tables_and_regions();
    sources.extend(policies());
    sources.extend(few_places());
    sources.extend(limits());
    sources
}

fn tables_and_regions() -> Vec<Subject> {
    let most = MOST_TABLES - 3;
    let newer = Image { sinit: module_with(HEADER_3_0, 960), ..plain() };
    let often = |name, image, places| Subject::of_image(name, image, places, OFTEN);
    vec![
        often("two pages", plain(), 2),
        often("two pages, module header 3.0", newer, 3),
        often("a header at the end of its page", of(Shape { pages: 3, header: 4044, ..Shape::default() }), 3),
        often("the most tables", of(Shape { empty_tables: most, ..Shape::default() }), 2),
        often("a table too many", of(Shape { empty_tables: most + 1, ..Shape::default() }), 2),
        often("two directories", of(Shape { pages: 40, first: 512 * 512 - 20, ..Shape::default() }), 64),
        often("all in the low PMR, two pages in DPR", in_regions((BASE + 0x3000, 0x2000), (BASE, 0x6000)), 3),
        often("tables in DPR, pages in the low PMR", in_regions((BASE, 0x3000), (BASE + 0x3000, 0x3000)), 3),
        often("spread pages", spread(BASE), MOST_PAGES),
        often("spread pages, reserved ranges", with_ranges(), 2),
    ]
}

/// Three pages behind three tables, with this DPR and this low PMR.
fn in_regions(dpr: Region, low: Region) -> Image {
    let mut image = of(Shape { pages: 3, ..Shape::default() });
    image.set_regions(dpr, low, (0, 0));
    image
}

/// As many reserved ranges as there may be: the free pages between tables and pages, the byte before each, and some of size 0 inside.
fn with_ranges() -> Image {
    let mut image = under_list(&spread(BASE));
    let used = [POINTERS, DIRECTORY, TABLE, ONE, TWO].map(|page| image.address(page));
    let free = [0, 2, 4, 6, 8].map(|page| (image.address(page), PAGE as u64));
    let ranges = [&free[..], &used.map(|at| (at - 1, 1)), &used.map(|at| (at + 0x800, 0)), &[(image.address(TWO + 1), 0x2000)]];
    assert_eq!(ranges.concat().len(), MOST_RESERVED);
    image.reserve(&ranges.concat());
    image
}

fn policies() -> Vec<Subject> {
    let image = plain();
    let named = launch(2, &[[3; 32], digest(&image)]);
    let other = list(&[launch(0, &[[1; 32]]), element(3, &[9; 20])]);
    let mut sources = vec![
        Subject::of_image("two lists", with_lists(&image, &[other, list(&[named])]), 7, MOST_OFTEN),
        Subject::of_image("two lists with STM elements", with_stm(), 2, MOST_OFTEN),
        Subject::of_image("a policy file as long as one can be", with_lists(&image, &longest(&digest(&image))), 2, SELDOM),
    ];
    for name in ["one-2048", "one-3072", "three"] {
        sources.push(Subject::of_image(&format!("signed lists: {name}"), signed_by_tboot(name), 2, MOST_OFTEN));
    }
    sources
}

/// A list for another STM image, and one for this one.
fn with_stm() -> Image {
    let image = Image { stm: (0..300).map(|i| (i * 3) as u8).collect(), ..plain() };
    let (digest, stm_digest) = (digest(&image), digest_in_parts(&image.stm, 0));
    let other = list(&[launch(0, &[digest]), stm(&[[1; 32]])]);
    let by_others = element(0x14, &stm_body(0x0004, 1, &[2; 20]));
    with_lists(&image, &[other, list(&[by_others, stm(&[[3; 32], stm_digest]), launch(2, &[digest])])])
}

/// Eight lists of 65,536 bytes in all with their file's head, of which the last names the image.
fn longest(digest: &[u8; 32]) -> Vec<Vec<u8>> {
    let elements = vec![launch(0, &[[1; 32]]); 162];
    let naming = [&elements[..], &[launch(0, &[*digest])]].concat();
    let with = |filler: usize| {
        let last = [&naming[..], &[element(policy::CUSTOM, &vec![7; filler])]].concat();
        [vec![list(&elements); 7], vec![list(&last)]].concat()
    };
    let filler = policy::MOST - policy_file(&with(0)).0.len();
    with(filler)
}

/// An image under a policy that tboot's tools signed.
fn signed_by_tboot(name: &str) -> Image {
    let folder = top().join("rust/bleiwurzel/tests/data/signed");
    let read = |ending| std::fs::read(folder.join(name).with_extension(ending)).expect("a stored policy");
    Image { record: read("pol"), ..with_file(&plain(), &read("data"), &[0; 32]) }
}

fn few_places() -> Vec<Subject> {
    let often = |name, image, places| Subject::of_image(name, image, places, OFTEN);
    vec![
        often("two pages and one place", plain(), 1),
        often("two pages under a list and no place", under_list(&plain()), 0),
        often("forty pages and 39 places", of(Shape { pages: 40, ..Shape::default() }), 39),
    ]
}

/// Heap and window as long as they may be. The bytes that a damage may add have room from the start, so that the window is not moved for them.
fn limits() -> Vec<Subject> {
    let small = plain();
    let mut longest_window = of(Shape { spare: MOST_WINDOW - small.window.len(), ..Shape::default() });
    longest_window.window.reserve_exact(1 << 16);
    let longest_heap = of(Shape { heap_spare: MOST_HEAP - small.heap.len(), ..Shape::default() });
    vec![
        Subject::of_image("the longest heap", longest_heap, 2, SELDOM),
        Subject::of_image("the longest window", longest_window, 2, SELDOM),
    ]
}
