//! What is said of rule 1: the window's base, the lengths of the parts, and where ranges end.

use super::{on_a_page, reserved_range, words, Asked, Words};
use crate::{MemoryRange, HIGHEST_END, MOST_HEAP, MOST_STM, MOST_WINDOW};
use twin::limits::{Extent, Fault, Part};

pub fn said(fault: Fault, asked: &Asked) -> Words {
    match fault {
        Fault::WindowBase => words("window base of the platform", on_a_page(), format!("{:#x}", asked.platform.window_base)),
        Fault::Length(part) => length(part, asked),
        Fault::End(extent) => end(extent, asked),
    }
}

fn length(part: Part, asked: &Asked) -> Words {
    let (name, length, limit) = match part {
        Part::Window => ("window", asked.lengths.window, MOST_WINDOW),
        Part::Heap => ("heap", asked.lengths.heap, MOST_HEAP),
        Part::Stm => ("STM image", asked.lengths.stm, MOST_STM),
    };
    words(format!("length of the {name}"), format!("at most {limit} bytes"), length.to_string())
}

fn end(extent: Extent, asked: &Asked) -> Words {
    let (parts, platform) = (asked.parts, asked.platform);
    let of = |name: &str, base, size, sum: &str| (format!("end of {name}: {sum}"), MemoryRange { base, size });
    let (place, range) = match extent {
        Extent::Window => of("the window", platform.window_base, parts.window.len() as u64, "window base plus its length"),
        Extent::Heap => of("the heap", platform.heap_base, parts.heap.len() as u64, "heap base plus its length"),
        Extent::Dpr => of("the DPR", platform.dpr_base, platform.dpr_size, "DPR base plus DPR size"),
        Extent::Reserved(index) => {
            let range = platform.reserved.as_slice()[index];
            of(&reserved_range(index), range.base, range.size, "its base plus its size")
        }
    };
    let found = format!("{:#x} + {:#x} = {:#x}", range.base, range.size, range.end());
    words(place, format!("at most 2^52 ({HIGHEST_END:#x})"), found)
}
