//! The numbers of the rules that a program meets: sizes and counts. `tests/numbers.rs` of `bleiwurzel` holds them to the
//! Rattle sources and to the C header.

/// The bytes of a page.
pub const PAGE_SIZE: u64 = 4096;
/// Where window, heap, DPR, reserved ranges and the high PMR end at the latest.
pub const HIGHEST_END: u64 = 1 << 52;
/// The most bytes of a memory window.
pub const MOST_WINDOW: usize = 128 << 20;
/// The most bytes of a TXT heap.
pub const MOST_HEAP: usize = 1 << 20;
/// The most bytes of an STM image.
pub const MOST_STM: usize = 16 << 20;
/// The most reserved ranges of a platform.
pub const MOST_RESERVED: usize = 16;
/// The most bytes of a SINIT module on any platform: it ends below 2^32.
pub const MOST_MODULE: u64 = (1 << 32) - 1;
/// The most entries of a SINIT module's chipset list.
pub const MOST_CHIPSETS: u64 = 64;
/// The most pages of an image. With as many places in the page list, 13 is never answered.
pub const MOST_PAGES: usize = 16_384;
/// The most pages of tables, the table base and the directories counted.
pub const MOST_TABLES: usize = 40;
/// The bytes of a policy record.
pub const RECORD_LENGTH: usize = 70;
/// Those of them that stand before its PolicyHash.
pub const RECORD_FIELDS: usize = 38;
/// The list of an answer where no list permits: on every refusal, and under an ANY policy.
pub const NO_LIST: u32 = 255;
