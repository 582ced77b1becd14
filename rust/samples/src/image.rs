//! Images that the check permits: a window with tables and pages, a heap, a SINIT module, a record of type ANY and a platform.

use super::put;
use inputs::{MemoryRange, Parts, Platform, Reserved, MOST_PAGES, MOST_RESERVED};

pub const PAGE: usize = 4096;
pub const BASE: u64 = 0x10_0000;

/// A region of memory that is protected against DMA, as base and size.
pub type Region = (u64, u64);

/// What an image is made of. The window is: pointer table, directories, page tables, the pages one behind the other, then `spare` bytes.
#[derive(Clone)]
pub struct Shape {
    /// The physical address of the window.
    pub base: u64,
    pub pages: usize,
    /// How many page tables there are beyond those that the pages need; they are empty.
    pub empty_tables: usize,
    /// The number of the first linear page.
    pub first: usize,
    /// Where in the first page the MLE header stands.
    pub header: usize,
    /// Bytes behind the last page.
    pub spare: usize,
    /// Bytes of the heap behind OsSinitData.
    pub heap_spare: usize,
}

impl Default for Shape {
    fn default() -> Self {
        Shape { base: BASE, pages: 2, empty_tables: 0, first: 0, header: 0, spare: 0, heap_spare: 0 }
    }
}

/// An image with an ANY policy, unless `with_lists` changes it.
#[derive(Clone)]
pub struct Image {
    pub window: Vec<u8>,
    pub heap: Vec<u8>,
    pub sinit: Vec<u8>,
    pub record: Vec<u8>,
    /// The STM image; none unless a test gives one.
    pub stm: Vec<u8>,
    pub platform: Platform,
    /// How many places the page list has.
    pub places: usize,
    /// The physical addresses of the image's pages, in linear order: what is listed on a permission.
    pub listed: Vec<u64>,
    /// How many pages of the window stand before the image's first page.
    pub content: usize,
}

/// Offsets in the heap: the sizes of its parts, and the fields of OsSinitData, of which the first byte after the size is byte 24.
pub const BIOS_DATA: usize = 0;
pub const OS_MLE_DATA: usize = 8;
pub const OS_SINIT_DATA: usize = 16;
pub const FIELDS: usize = 24;
pub const TABLE_BASE: usize = FIELDS + 8;
pub const MLE_SIZE: usize = FIELDS + 16;
pub const HEADER_BASE: usize = FIELDS + 24;
pub const LOW: usize = FIELDS + 32;
pub const HIGH: usize = FIELDS + 48;
pub const POLICY_BASE: usize = FIELDS + 64;
pub const POLICY_SIZE: usize = FIELDS + 72;
pub const ELEMENTS: usize = FIELDS + 92;

/// The offset in the record of LcpHashAlgMask.
pub const HASH_ALG_MASK: usize = 28;

/// What the two editions of a module's header settle: version, HeaderLen and KeySize.
#[derive(Clone, Copy)]
pub struct Header {
    pub version: u64,
    pub words: u64,
    pub key_words: u64,
}

pub const HEADER_0_0: Header = Header { version: 0, words: 161, key_words: 64 };
pub const HEADER_3_0: Header = Header { version: 0x0003_0000, words: 224, key_words: 96 };

/// Offsets in the module: the chipset list, its first entry, and the information table behind a header of version 0.0.
pub const CHIPSETS: usize = 128;
pub const ENTRY: usize = CHIPSETS + 4;
pub const INFORMATION: usize = 4 * HEADER_0_0.words as usize;
pub const ACM_VERSION: usize = INFORMATION + 36;

impl Image {
    pub fn parts(&self) -> Parts<'_> {
        Parts { window: &self.window, heap: &self.heap, sinit: &self.sinit, record: &self.record, stm: &self.stm }
    }

    /// Where the module's information table stands, without a scratch area; HeaderLen is below 256.
    pub fn information(&self) -> usize {
        4 * usize::from(self.sinit[4])
    }

    /// Gives the platform these reserved ranges, as base and size.
    pub fn reserve(&mut self, ranges: &[(u64, u64)]) {
        let ranges: Vec<MemoryRange> = ranges.iter().map(|(base, size)| MemoryRange { base: *base, size: *size }).collect();
        self.platform.reserved = Reserved::new(&ranges).expect("at most 16 ranges");
    }

    /// Gives the image this DPR, low PMR and high PMR.
    pub fn set_regions(&mut self, dpr: Region, low: Region, high: Region) {
        (self.platform.dpr_base, self.platform.dpr_size) = dpr;
        for (at, (base, size)) in [(LOW, low), (HIGH, high)] {
            put(&mut self.heap, at, base, 8);
            put(&mut self.heap, at + 8, size, 8);
        }
    }

    /// The physical address of a page of the window.
    pub fn address(&self, page: usize) -> u64 {
        self.platform.window_base + (page * PAGE) as u64
    }

    /// The offset in the window of a physical address.
    pub fn offset(&self, address: u64) -> usize {
        (address - self.platform.window_base) as usize
    }

    /// The bytes of the image, in linear order.
    pub fn bytes(&self) -> Vec<u8> {
        let page = |address: &u64| &self.window[self.offset(*address)..][..PAGE];
        self.listed.iter().flat_map(page).copied().collect()
    }

    /// Writes a present entry: table and page are pages of the window.
    pub fn entry(&mut self, table: usize, index: usize, page: usize) {
        self.entry_bits(table, index, self.address(page) | 1);
    }

    pub fn entry_bits(&mut self, table: usize, index: usize, entry: u64) {
        put(&mut self.window, table * PAGE + index * 8, entry, 8);
    }

    /// Makes MLE Size, the header base and the pages' content fit for these pages of the window from a linear page on. Their entries
    /// are left as they are.
    pub fn maps(&mut self, first: usize, pages: &[usize]) {
        self.listed = pages.iter().map(|page| self.address(*page)).collect();
        put(&mut self.heap, MLE_SIZE, (pages.len() * PAGE) as u64, 8);
        put(&mut self.heap, HEADER_BASE, (first * PAGE) as u64, 8);
        for page in pages {
            self.window[page * PAGE..][..PAGE].fill(*page as u8);
        }
        put_header(&mut self.window, pages[0] * PAGE, first, pages.len());
    }

    /// The offset in the window of a field of the MLE header, which stands at the front of the first page.
    pub fn header(&self, field: usize) -> usize {
        self.offset(self.listed[0]) + field
    }
}

/// Reserved ranges as the library takes them: how many count, and base and size in turn of all that there is place for.
pub fn reserved_numbers(reserved: &Reserved) -> (u32, [u64; 2 * MOST_RESERVED]) {
    let mut numbers = [0; 2 * MOST_RESERVED];
    let given = reserved.as_slice().iter().flat_map(|range| [range.base, range.size]);
    numbers.iter_mut().zip(given).for_each(|(place, number)| *place = number);
    (reserved.as_slice().len() as u32, numbers)
}

fn heap(shape: &Shape) -> Vec<u8> {
    let mut heap = vec![0u8; 124 + shape.heap_spare];
    put(&mut heap, BIOS_DATA, 8, 8);
    put(&mut heap, OS_MLE_DATA, 8, 8);
    put(&mut heap, OS_SINIT_DATA, 108, 8);
    put(&mut heap, FIELDS, 7, 4);
    put(&mut heap, TABLE_BASE, shape.base, 8);
    put(&mut heap, MLE_SIZE, (shape.pages * PAGE) as u64, 8);
    put(&mut heap, HEADER_BASE, (shape.first * PAGE + shape.header) as u64, 8);
    put(&mut heap, ELEMENTS + 4, 8, 4);
    heap
}

/// An information table with its chipset list at `CHIPSETS`.
pub fn put_information(sinit: &mut [u8], at: usize) {
    let uuid = [0xaa, 0x3a, 0xc0, 0x7f, 0xa7, 0x46, 0xdb, 0x18, 0x2e, 0xac, 0x69, 0x8f, 0x8d, 0x41, 0x7f, 0x5a];
    sinit[at..at + 16].copy_from_slice(&uuid);
    let fields = [(16, 1, 1), (18, 44, 2), (20, CHIPSETS as u64, 4), (24, 7, 4), (28, 0x20003, 4), (36, 5, 1)];
    fields.iter().for_each(|(o, number, width)| put(sinit, at + o, *number, *width));
}

/// An entry of a chipset list, for vendor 0x8086.
pub fn put_chipset(sinit: &mut [u8], at: usize, flags: u64, device: u64, revision: u64) {
    let fields = [(0, flags, 4), (4, 0x8086, 2), (6, device, 2), (8, revision, 2)];
    fields.iter().for_each(|(o, number, width)| put(sinit, at + o, *number, *width));
}

/// A module of so many bytes with a header, without a scratch area, and with one chipset.
pub fn module_with(header: Header, length: usize) -> Vec<u8> {
    let mut sinit = vec![0u8; length];
    let e = 4 * header.words;
    let edition = [(4, header.words), (8, header.version), (120, header.key_words)];
    let fields = [(16, 0x8086), (24, length as u64 / 4), (40, 23), (44, e + 36), (48, 8), (52, e + 56)];
    edition.iter().chain(&fields).for_each(|(at, number)| put(&mut sinit, *at, *number, 4));
    put(&mut sinit, 0, 2, 2);
    put_information(&mut sinit, e as usize);
    put(&mut sinit, CHIPSETS, 1, 4);
    put_chipset(&mut sinit, ENTRY, 0, 0xb002, 5);
    sinit
}

/// The same with a header of version 0.0.
pub fn module(length: usize) -> Vec<u8> {
    module_with(HEADER_0_0, length)
}

fn record() -> Vec<u8> {
    let mut record = vec![0u8; 70];
    put(&mut record, 0, 0x0302, 2);
    put(&mut record, 2, 0x000b, 2);
    put(&mut record, 4, 1, 1);
    put(&mut record, HASH_ALG_MASK, 0x0008, 2);
    record
}

/// The header of an image of `count` pages from a linear page on, or as much of it as the window has room for.
pub fn put_header(window: &mut [u8], at: usize, first: usize, count: usize) {
    let first = (first * PAGE) as u64;
    let mut header = vec![0u8; 52];
    let uuid = [0x5a, 0xac, 0x82, 0x90, 0x6f, 0x47, 0xa7, 0x74, 0x0f, 0x5c, 0x55, 0xa2, 0xcb, 0x51, 0xb6, 0x42];
    header[..16].copy_from_slice(&uuid);
    let fields = [(16, 52), (20, 0x20003), (24, first + 0x40), (28, first), (36, (count * PAGE) as u64)];
    fields.iter().for_each(|(o, number)| put(&mut header, *o, *number, 4));
    let end = (at + 52).min(window.len());
    window[at..end].copy_from_slice(&header[..end - at]);
}

/// A window of so many zero bytes with its heap, module, record and platform, and no page yet.
fn empty(shape: &Shape, length: usize) -> Image {
    let platform = Platform {
        window_base: shape.base,
        heap_base: 0x1000_0000,
        sinit_base: 0x2000_0000,
        dpr_base: shape.base,
        dpr_size: length as u64,
        acram_capacity: 0x2_0000,
        vendor: 0x8086,
        device: 0xb002,
        revision: 5,
        reserved: Reserved::NONE,
    };
    Image {
        window: vec![0u8; length],
        heap: heap(shape),
        sinit: module(768),
        record: record(),
        stm: Vec::new(),
        platform,
        places: MOST_PAGES,
        listed: Vec::new(),
        content: 0,
    }
}

/// The image of a shape.
pub fn image(shape: &Shape) -> Image {
    let directories = (shape.first / 512 / 512)..=((shape.first + shape.pages.max(1) - 1) / 512 / 512);
    let tables = (shape.first / 512)..=((shape.first + shape.pages.max(1) - 1) / 512);
    let directory_count = directories.clone().count();
    let table_count = tables.clone().count() + shape.empty_tables;
    let content = 1 + directory_count + table_count;
    let mut image = empty(shape, (content + shape.pages) * PAGE + shape.spare);
    for (i, byte) in image.window[content * PAGE..].iter_mut().enumerate() {
        *byte = (i * 7 + i / 251 + 1) as u8;
    }
    for (d, index) in directories.clone().enumerate() {
        image.entry(0, index, 1 + d);
    }
    for t in 0..table_count {
        let number = tables.start() + t;
        image.entry(1 + number / 512 - directories.start(), number % 512, 1 + directory_count + t);
    }
    for k in 0..shape.pages {
        let linear = shape.first + k;
        image.entry(1 + directory_count + linear / 512 - tables.start(), linear % 512, content + k);
    }
    if shape.pages > 0 {
        put_header(&mut image.window, content * PAGE + shape.header, shape.first, shape.pages);
    }
    image.listed = (0..shape.pages).map(|k| image.address(content + k)).collect();
    image.content = content;
    image
}

/// The pages of a spread image's window that hold its tables, and its two pages.
pub const POINTERS: usize = 1;
pub const DIRECTORY: usize = 3;
pub const TABLE: usize = 5;
pub const ONE: usize = 7;
pub const TWO: usize = 9;
/// How many pages the window has.
pub const ALL: usize = 48;

/// A small image whose tables and pages have free pages around them, so that heap and module can be moved up to each of them.
pub fn spread(base: u64) -> Image {
    let mut image = empty(&Shape { base, ..Shape::default() }, ALL * PAGE);
    let tables = image.address(POINTERS);
    put(&mut image.heap, TABLE_BASE, tables, 8);
    image.entry(POINTERS, 0, DIRECTORY);
    image.entry(DIRECTORY, 0, TABLE);
    image.entry(TABLE, 0, ONE);
    image.entry(TABLE, 1, TWO);
    image.maps(0, &[ONE, TWO]);
    image.content = ONE;
    image
}
