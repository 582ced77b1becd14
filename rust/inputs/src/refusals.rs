//! The texts of the refusals: the one source of what the tool says and of docs/REFUSALS.md.

/// All that is written about one number.
#[derive(Debug)]
pub struct Text {
    pub number: u32,
    /// A short name, as in the headings; the C header has it in capitals.
    pub name: &'static str,
    /// What it means, in one sentence.
    pub meaning: &'static str,
    /// The rule with its fields and offsets.
    pub rule: &'static str,
    /// What usually is behind it.
    pub causes: &'static [&'static str],
    /// What a technician at the rack checks, in order.
    pub technician: &'static [&'static str],
    /// What whoever builds the image changes.
    pub builder: &'static [&'static str],
}

/// The text of a number from 1 to 33.
pub fn text(number: u32) -> Option<&'static Text> {
    TEXTS.iter().find(|text| text.number == number)
}

/// docs/REFUSALS.md.
pub fn markdown() -> String {
    let mut page = String::from(HEAD);
    for text in &TEXTS {
        page.push_str(&format!("| [{0}](#{0}-{1}) | {2} |\n", text.number, anchor(text.name), text.meaning));
    }
    TEXTS.iter().for_each(|text| section(&mut page, text));
    page
}

fn anchor(name: &str) -> String {
    name.to_lowercase().replace(' ', "-")
}

fn section(page: &mut String, text: &Text) {
    page.push_str(&format!("\n## {} {}\n\n{}\n\n", text.number, text.name, text.meaning));
    page.push_str(&format!("**The rule.** {}\n", text.rule));
    points(page, "Usual causes", text.causes);
    points(page, "A technician checks", text.technician);
    points(page, "The image's builder changes", text.builder);
}

fn points(page: &mut String, title: &str, points: &[&str]) {
    page.push_str(&format!("\n**{title}**\n\n"));
    points.iter().for_each(|point| page.push_str(&format!("- {point}\n")));
}

const HEAD: &str = "# Refusals

What each number of the check means, what usually is behind it, what a technician checks at the rack, and what whoever builds the
image changes. This page is printed by `bleiwurzel refusals`; a test compares the two.

Start with the tool: `bleiwurzel check` says on a refusal what was found and where, with the value that was expected. The numbers are
tried in rising order, except 14 to 20, which come up in the order in which the page tables are walked. So everything with a lower
number is in order (of 14 to 20, all that the walk meets before the place that was found), and a repaired fault may uncover a later
one. Rules 26 to 29 are tried under a LIST policy only. 31 to 33 are no numbers of the check: with these `bleiwurzel policy write`, which makes
a policy file of a description, says that it has written none.

Offsets are in bytes and numbers little-endian. Offsets *in OsSinitData* count from the byte after its 8-byte size field; offsets *in the
module*, *in the MLE header*, *in the record* and *in the policy file* from their first byte. A window offset is the physical address
minus the window base. KiB and MiB are powers of two.

Where the platform's numbers come from: TXT.HEAP.BASE and TXT.HEAP.SIZE (offsets 0x300 and 0x308 of the TXT registers), TXT.SINIT.BASE
(0x270), TXT.DIDVID (0x110: vendor bits 0 to 15, device 16 to 31, revision 32 to 47), TXT.DPR (0x330: the address above its last byte in
bits 20 to 31, its size in MiB in bits 4 to 11; newer platforms have it in PCI configuration space instead, see their data sheet). The
ACRAM capacity is what GETSEC[PARAMETERS] reports. The reserved ranges are all that the host's memory map (`/proc/iomem`, or the lines BIOS-e820 of
the kernel's log) does not list as usable memory, but for the DPR, where the image lies in it.

| No. | Meaning |
|---|---|
";

/// What every record that is made anew has in common: SHA-256, the version that the MLE guide has, and the signature algorithm without which
/// `lcp2_crtpol` makes no record.
macro_rules! record {
    () => {
        "--alg sha256 --polver 3.2 --mask sha256 --sign rsa-2048-sha256 --pol record.pol"
    };
}

/// Makes a policy record and a policy file of a policy list. These are command lines of tboot's tools, which `tests/tboot_commands.sh` runs.
macro_rules! make_policy {
    ($($more:literal)?) => {
        concat!("`lcp2_crtpol --create --type list ", $($more, " ",)? record!(), " --data policy.data policy.lst`")
    };
}

/// Of a record that is made anew: `lcp2_crtpol` takes nothing over from the old one. The text of 29 says more.
macro_rules! asks_again {
    () => {
        "Give a new record its SINITMinVersion and counters with `--minver` and `--rev`: without these it asks for 0, and older modules and \
         signed lists pass (29)."
    };
}

/// What this tool makes without tboot's.
macro_rules! policy_write {
    () => {
        "`bleiwurzel policy write` makes file and record from a text too; give its line `record` the old record's SINITMinVersion and counters"
    };
}

/// Makes a policy list of a launch element, and of more.
macro_rules! make_list {
    ($($more:literal)?) => {
        concat!("`lcp2_crtpollist --create --listver 0x201 --out policy.lst mle.elt", $($more,)? "`")
    };
}

/// Of a fault of the image: only its builder can repair it.
macro_rules! not_at_the_rack {
    () => {
        "Nothing at the rack repairs this"
    };
}

/// Of a rule about protection or the record, which is tried under every policy.
macro_rules! under_any {
    () => {
        "It holds under ANY too."
    };
}

pub static TEXTS: [Text; 33] = [
    Text {
        number: 1,
        name: "limits",
        meaning: "The window base is no multiple of 4096, the window is over 128 MiB, the heap is over 1 MiB, the STM image is over 16 MiB, there \
            are over 16 reserved ranges, or base plus size of window, heap, DPR or a reserved range is over 2^52.",
        rule: "Window base mod 4096 = 0; window at most 134,217,728 bytes; heap at most 1,048,576 bytes; STM image at most 16,777,216 bytes, \
            also where no list asks for it; at most 16 reserved ranges; window base + window length, heap base + heap length, DPR base + DPR \
            size and base + size of every reserved range each at most 2^52, added without wrapping, the DPR and the reserved ranges also at \
            size 0. What a program hands over past its count of reserved ranges is not looked at.",
        causes: &[
            "A base was typed with a digit missing or too many, or decimal instead of hexadecimal.",
            "DPR top was given as DPR base, or base and size changed places.",
            "The window file is a dump of more memory than image, tables and policy file take.",
            "The heap file is a dump of the whole TXT region and not of the heap alone.",
            "The STM file is a dump of all of SMRAM or MSEG and not the STM's static image.",
            "A program hands over every range of the host's memory map, and these are more than 16.",
        ],
        technician: &[
            "Compare the platform numbers that were handed over with the host's registers, digit by digit.",
            "Compare the sizes of the window file, the heap file and the STM file with the limits (`ls -l`).",
            "DPR base is the DPR's top minus its size; with no DPR give 0 for both.",
            "If it is a reserved range, compare it with the host's memory map (`/proc/iomem`, read as root). That shows first and last byte; the size is \
             their difference and 1 more.",
        ],
        builder: &[
            "Place image, page tables and policy file so that one window of at most 128 MiB holds all of them.",
            "Dump the window from a page boundary on.",
            "Hand over of an STM its static image alone: from the first byte of MSEG on as many bytes as StaticImageSize says, 32 bits at 2052 in \
             the STM's header.",
            "In a program that has more than 16 reserved ranges, join those that adjoin, and leave out those outside the window, where no page may lie \
             either.",
        ],
    },
    Text {
        number: 2,
        name: "heap parts",
        meaning: "BiosData, OsMleData and OsSinitData do not fit into the heap, one behind the other.",
        rule: "The heap begins with BiosData; OsMleData follows it, then OsSinitData. Each begins with a 64-bit size that counts itself: at \
            least 8, and the sum of the three is at most the heap's length.",
        causes: &[
            "The heap file is cut off, or begins at another address than TXT.HEAP.BASE.",
            "The loader did not write OsMleData or OsSinitData, so that a size is 0.",
            "A size field does not count its own 8 bytes.",
        ],
        technician: &[
            "The file must begin at TXT.HEAP.BASE and have TXT.HEAP.SIZE bytes: take the dump again.",
            "The first 8 bytes are BiosData's size, written by the firmware. If they are 0, TXT is not set up: look at the firmware's TXT \
             setting.",
        ],
        builder: &[
            "Write the three parts in turn, each with its whole size, the size field included.",
            "Zero is no size: an empty OsMleData has size 8.",
        ],
    },
    Text {
        number: 3,
        name: "OsSinitData",
        meaning: "OsSinitData has fewer than 108 bytes, or its version is neither 6 nor 7.",
        rule: "OsSinitData's size field is at least 108 (8 for itself, 92 of fields, 8 for the end element); its version, 32 bits at offset 0 \
            in OsSinitData, is 6 or 7.",
        causes: &[
            "A boot loader for older or newer platforms writes another version.",
            "The size counts the fields but not the elements behind them.",
            "OsMleData's size is wrong, so that OsSinitData is looked for at the wrong place.",
        ],
        technician: &[
            "Look at the version that was found. 4 or 5 is an old boot loader: install the one meant for this host.",
            "A version that looks like an address or like text means a wrong size of the part before it; take the heap dump again.",
        ],
        builder: &["Write version 7 (TPM 2.0) and all fields up to offset 92, then the elements, of which the last is the end element."],
    },
    Text {
        number: 4,
        name: "heap elements",
        meaning: "The elements at the end of OsSinitData are malformed: one has a wrong size, or none ends the list.",
        rule: "From offset 92 in OsSinitData on stand elements of type (32 bits) and size (32 bits, itself counted, at least 8), each inside \
            the part. Type 0 has size 8 and ends the list; what follows it is ignored. Other types are skipped. There must be an end.",
        causes: &[
            "The end element (type 0, size 8) is missing.",
            "An element's size counts only its data and not its own 8 bytes.",
            "OsSinitData's size ends in the middle of an element.",
        ],
        technician: &[concat!(not_at_the_rack!(), "; it comes from the boot loader. Hand what the tool found, and where, to the image's builder.")],
        builder: &[
            "Close the list with the 8 bytes 00 00 00 00 08 00 00 00 inside OsSinitData's size.",
            "Count type and size in every element's size. In heap elements the type comes first, in policy elements the size.",
        ],
    },
    Text {
        number: 5,
        name: "PMR",
        meaning: "A PMR in use lies on the wrong side of 4 GiB, or the high one ends above 2^52.",
        rule: "In OsSinitData: PMR low base at offset 32, low size 40, high base 48, high size 56, 64 bits each. Size 0 is unused and not \
            judged. A low PMR ends at or below 2^32; a high one begins at or above 2^32 and ends at or below 2^52. It is 5 also where the \
            DPR protects every table and page.",
        causes: &[
            "The low PMR was made to cover memory up to the top of a host with more than 4 GiB.",
            "The high PMR is filled in on a host that has no memory above 4 GiB.",
            "Base and end were written instead of base and size.",
        ],
        technician: &[
            "Compare the memory of the host with the one the image was made for: after a change of DIMMs the PMRs may be stale.",
            "Look whether the found size is in truth an end address.",
        ],
        builder: &[
            "Split the protected memory at 4 GiB; write size 0 for the half that is not there. One of the two, or the DPR, must hold the whole image, \
                and each table page must lie in one of them (20).",
        ],
    },
    Text {
        number: 6,
        name: "module place",
        meaning: "The SINIT module's base or length is not one from which a processor starts it.",
        rule: "SINIT base mod 4096 = 0; length mod 64 = 0, at most the ACRAM capacity, and at least 704, or 960 where the header's version (32 \
            bits at 8) is 0x00030000; base + length at most 2^32 - 1. The version alone picks the least length, whatever else the header says.",
        causes: &[
            "The module file is cut off, or has bytes appended (a download page, a padding).",
            "The ACRAM capacity was given in KiB, or that of another processor.",
            "SINIT base is not TXT.SINIT.BASE.",
        ],
        technician: &[
            "Compare the module file's size and checksum with the vendor's.",
            "Compare SINIT base with TXT.SINIT.BASE, and the ACRAM capacity with the processor's (GETSEC[PARAMETERS]).",
        ],
        builder: &[
            "Ship the module as the vendor delivers it, without its archive or signature file.",
            "Load it on a page boundary below 4 GiB.",
        ],
    },
    Text {
        number: 7,
        name: "module header",
        meaning: "The SINIT module's header has a wrong type, header length, version, vendor, size or key size.",
        rule: "In the module: type at 0 (16 bits) = 2; vendor 16 (32) = 0x8086; size 24 (32) times 4 is the file's length; and all of one edition: \
            version 8 (32) = 0, HeaderLen 4 (32) = 161 and KeySize 120 (32) = 64, or version 0x00030000, HeaderLen 224 and KeySize 96.",
        causes: &[
            "The file is no SINIT module: a BIOS ACM, an archive, a text page.",
            "It is a module of another header edition than 0.0 and 3.0, which this check does not know.",
            "The header mixes the two editions: it was made by hand, or the file is damaged.",
            "The file is cut off or padded, so that the size field does not fit it.",
        ],
        technician: &[
            "Look at the vendor field: if it is not 0x8086, this is not the module. Fetch the right file.",
            "If only the size differs, fetch the module again.",
            "If the version is neither 0 nor 0x00030000, the module may be good for the host, but this check cannot judge it.",
            "If HeaderLen or KeySize is not the one of the module's version, the file is damaged or was changed: compare its checksum with the \
                vendor's and fetch it again.",
        ],
        builder: &[
            "Ship the SINIT module for this platform, unchanged; its length is 4 times the field at offset 24.",
            "In a module of your own with header version 3.0 write HeaderLen 224, as table 8 of Intel's MLE guide has it, and version 0x00030000, \
                the major number in bits 31:16. The guide's text also says 320 and 0300H; with these the module is refused.",
        ],
    },
    Text {
        number: 8,
        name: "module entry",
        meaning: "The GDT, the entry point or the segment selector in the SINIT module's header points to a wrong place.",
        rule: "In the module: GDTLimit at 40, GDTBasePtr 44, SegSel 48, EntryPoint 52, ScratchSize 124 (32 bits each). With E = 4·HeaderLen \
            + 4·ScratchSize: GDTBasePtr ≥ E; GDTBasePtr + GDTLimit < length; GDTLimit < 65,536; E ≤ EntryPoint < length; SegSel ≥ 8 and a \
            multiple of 8; SegSel + 15 ≤ GDTLimit. Sums never wrap.",
        causes: &[
            "The module is damaged behind an intact first line.",
            "A test module was made by hand, with a GDT too short for its code and data segment.",
        ],
        technician: &["The module file is damaged: compare its checksum with the vendor's and fetch it again."],
        builder: &["Use the vendor's module. In one of your own, a GDT with SegSel 8 has a limit of at least 23."],
    },
    Text {
        number: 9,
        name: "module table",
        meaning: "The SINIT module's information table or its chipset list is malformed or not inside the module.",
        rule: "The information table is the 44 bytes at E = 4·HeaderLen + 4·ScratchSize, inside the module: UUID AA 3A C0 7F A7 46 DB 18 2E AC \
            69 8F 8D 41 7F 5A; type at +16 (8 bits) = 1; length +18 (16) ≥ 44; chipset list offset +20 (32), from the module's first byte. \
            The list has a count (32) of at most 64 and that many entries of 16 bytes, all inside the module.",
        causes: &[
            "It is a BIOS ACM (type 0) or a revocation module (type 8 or 9), not SINIT.",
            "The module is damaged, or ScratchSize is.",
        ],
        technician: &[
            "Look at the type that was found: 0 is a BIOS ACM. Fetch the SINIT module.",
            "Otherwise compare the file's checksum with the vendor's.",
        ],
        builder: &["Ship the SINIT ACM; of a family of modules, the one whose information table has type 1."],
    },
    Text {
        number: 10,
        name: "chipset",
        meaning: "No entry of the SINIT module's chipset list matches the platform's chipset.",
        rule: "An entry (flags 32 bits, vendor, device, revision 16 bits each, 6 reserved) matches where vendor and device are equal and, with \
            flag bit 0 clear, the revisions are equal; with it set, where revision AND the chipset's revision is not 0.",
        causes: &[
            "The module is for another platform generation.",
            "The board was replaced by one with another chipset or stepping.",
            "Vendor, device or revision were given wrong, for instance device and vendor swapped.",
        ],
        technician: &[
            "Compare vendor, device and revision with TXT.DIDVID of this very host.",
            "Compare them with the entries that the tool lists. If none is meant for this chipset, the image carries the wrong module.",
        ],
        builder: &["Ship the SINIT module for this chipset; where an image serves several platforms, let the loader pick by TXT.DIDVID."],
    },
    Text {
        number: 11,
        name: "OsSinitData version",
        meaning: "The version of OsSinitData is above the one that the SINIT module knows.",
        rule: "OsSinitData's version (offset 0, 32 bits) is at most OsSinitDataVer in the module's information table (E + 24, 32 bits).",
        causes: &["A new boot loader meets an old SINIT module.", "A TPM 1.2 era module (version 6) is used with a TPM 2.0 boot loader (version 7)."],
        technician: &["Look whether a newer SINIT module for this chipset is in the store; the boot loader is newer than the module."],
        builder: &["Ship a module that knows the version, or have the loader write the module's OsSinitDataVer where it can."],
    },
    Text {
        number: 12,
        name: "MLE Size",
        meaning: "MLE Size is 0, no multiple of 4096, or over 16384 pages.",
        rule: "MLE Size, 64 bits at offset 16 in OsSinitData, is a multiple of 4096 from 4096 to 67,108,864.",
        causes: &[
            "The loader wrote the image file's length and not its length in whole pages.",
            "The image is over 64 MiB.",
            "The loader did not fill in OsSinitData.",
        ],
        technician: &[concat!(not_at_the_rack!(), ". If MLE Size is 0, the loader did not get far enough: look at its log.")],
        builder: &["Round MLE Size up to whole pages and map them; keep the measured image at or under 16,384 pages."],
    },
    Text {
        number: 13,
        name: "page list",
        meaning: "The page list that the caller lends has fewer places than the image has pages.",
        rule: "N = MLE Size / 4096 is at most the number of places in the page list.",
        causes: &[
            "The calling program lends a short list.",
            "The capture's MLE Size says more than 4,096 pages. `launch-check` and `bleiwurzel check --capture` lend 4,096 places, far more than a \
             capture can hold pages: either MLE Size is wrong, or the capture does not hold the whole image.",
        ],
        technician: &[
            "Ask again with `bleiwurzel check` and the parts, not a capture: it then lends 16,384 places, the most that an image can need, and never \
             answers 13. If that permits, the list of the program that asked was too short, and the image is not at fault.",
        ],
        builder: &["In the calling program, lend 16,384 places."],
    },
    Text {
        number: 14,
        name: "entry bits",
        meaning: "A present table entry has a bit set that must be 0, or the page table base is no multiple of 4096.",
        rule: "The page table base (64 bits at offset 8 in OsSinitData) is a multiple of 4096. In every entry with bit 0 set, bits 52 to 63 are \
            0; in an entry of the pointer table also bits 1, 2 and 5 to 8; in a directory entry also bit 7.",
        causes: &[
            "A directory maps a 2 MiB page (bit 7): the launch knows 4 KiB pages only.",
            "Entries have the no-execute bit (63).",
            "The pointer table's entries carry flags such as writable or user (bits 1, 2), which only directories and page tables may have.",
            "The table base points to something that is no table.",
        ],
        technician: &[concat!(not_at_the_rack!(), "; the tables are made by the boot loader. Hand entry and value to the image's builder.")],
        builder: &[
            "Build PAE tables of 4 KiB pages only; in the four pointer entries set the present bit and the address and nothing else.",
            "Leave out the no-execute bit; put the pointer table on a page of its own.",
        ],
    },
    Text {
        number: 15,
        name: "outside window",
        meaning: "A table or a page does not lie wholly inside the memory window.",
        rule: "The table base and each address in a present entry (bits 12 to 51) stand for 4,096 bytes, all of them inside the window: from \
            window base up to, not including, window base + window length.",
        causes: &[
            "The window was dumped too short, or from too high an address.",
            "Window base is wrong, so that every address is off by the same amount.",
            "The tables point to memory that is not part of the image.",
        ],
        technician: &[
            "Compare the address that was found with the window. If the base itself is outside, the window base or the dump is wrong: dump again.",
            "Compare the window file's size with what was to be dumped.",
        ],
        builder: &["Keep tables and image together in one window of at most 128 MiB, and have it dumped whole."],
    },
    Text {
        number: 16,
        name: "not ascending",
        meaning: "An address in the tables is not above the one found before it.",
        rule: "In the order of the walk (the base, the pointer entries, all directory entries, all page-table entries, each by rising index) \
            every address exceeds the one before it. Equal is not above. Absent entries take no part.",
        causes: &[
            "The loader placed the tables behind the image, or the page tables before a directory.",
            "Pages were allocated from the top down, or one page is mapped twice.",
        ],
        technician: &[concat!(not_at_the_rack!(), "; it is the order in which the loader placed tables and pages. Hand both addresses on.")],
        builder: &[
            "Lay out rising: pointer table, directories, page tables, then the pages in linear order.",
            "Map no page twice.",
        ],
    },
    Text {
        number: 17,
        name: "forbidden range",
        meaning: "A table or a page touches 0xA0000 to 0xFFFFF, the heap, the SINIT module or a reserved range of the platform.",
        rule: "The 4,096 bytes of every table and page are clear of 0xA0000 to 0xFFFFF (both included), of the heap (heap base, heap length), of \
            the module (SINIT base, module length) and of every reserved range of the platform (its base and size; with size 0 it reserves \
            nothing). Reserved ranges are counted from 0, and may overlap each other.",
        causes: &[
            "The image was loaded over the heap or the SINIT module, which the firmware placed elsewhere on this host.",
            "Heap base or SINIT base were given wrong.",
            "The loader put tables into low memory.",
            "The image was loaded over memory that the firmware of this host keeps, for instance for ACPI tables or for a device.",
            "The reserved ranges are those of a memory map that lists the DPR too, and the image lies in the DPR.",
            "The memory map is that of a host which the image itself had started; it may list the image's own place as reserved.",
            "The memory map is another host's, or not whole: what it does not list as usable memory counts as reserved.",
        ],
        technician: &[
            "Compare heap base and SINIT base with TXT.HEAP.BASE and TXT.SINIT.BASE of this host; after a firmware update they may have moved.",
            "If they are right, the image's place collides with them on this host.",
            "If it is a reserved range, look for its addresses in the memory map of this very host (`/proc/iomem`, read as root, or `dmesg | \
             grep BIOS-e820`); lines that adjoin there may be one range here. If all of them are usable memory there and nothing else, the range is another \
             host's, or the map has changed with the firmware: take it anew, `bleiwurzel check --reserved-from FILE ..`.",
            "If they are not usable there and are the DPR, where the image belongs, name the other ranges alone: `bleiwurzel check --reserved BASE+SIZE ..`. \
             If they are the image's own place, and it had started the host, take the map of a start without it, or name the other ranges likewise. Else \
             hand the range and the page to the image's builder.",
        ],
        builder: &[
            "Have the loader read TXT.HEAP.BASE and TXT.SINIT.BASE and place tables and image clear of both, and above 1 MiB.",
            "Place tables and image elsewhere, in memory that the memory map calls usable on every host that starts the image.",
        ],
    },
    Text {
        number: 18,
        name: "table pages",
        meaning: "The tables take a 41st page, the pointer table and the directories counted.",
        rule: "Pointer table, directories and page tables together are at most 40 pages; the entry that names the 41st is refused.",
        causes: &["The image is spread over many directories or page tables, most of them nearly empty.", "Tables from something else are mapped too."],
        technician: &[concat!(not_at_the_rack!(), ". Hand it to the image's builder.")],
        builder: &[
            "16,384 pages need 32 page tables, or 33 where they begin in the middle of one, a directory (or two) and the pointer table. Map only \
             the image, and from one linear address on.",
        ],
    },
    Text {
        number: 19,
        name: "linear gap",
        meaning: "The image's linear pages do not follow one another: there is a gap.",
        rule: "The linear number of a page is (pointer index · 512 + directory index) · 512 + page index. The first may be any; each later one \
            is the one before it plus 1.",
        causes: &[
            "The loader left out pages, for instance between text and data.",
            "A page table ends before its entry 511 although the next one has pages, or the next one does not begin at entry 0.",
        ],
        technician: &[concat!(not_at_the_rack!(), ". Hand entry and linear address to the image's builder.")],
        builder: &["Map the image as one piece of linear memory; fill holes between its sections with pages of zeros, which are then measured."],
    },
    Text {
        number: 20,
        name: "not protected",
        meaning: "A table page lies wholly in none of DPR, low PMR and high PMR, or none of these holds all pages of the image.",
        rule: concat!(
            "There are three regions: DPR (base and size of the platform), PMR low (offsets 32 and 40 in OsSinitData), PMR high (48 and 56). All \
             4,096 bytes of each table page (the pointer table, every directory and every page table, empty ones too) lie in any one of them, which may be \
             another than that of other tables or of the image; this is tried after 18, and of the base after 17. All 4,096 bytes of every page of \
             the image lie in one and the same. The first page picks every region that holds it, and each later page keeps those of them that hold \
             it too; the page that keeps none is refused. A table page across two regions that abut is refused unless the third holds all of it, \
             and so are pages unless one region holds them all. Every page that the tables map counts, also one past MLE Size. ",
            under_any!()
        ),
        causes: &[
            "The loader placed the tables just below the image, and the PMR or DPR was made for the image alone.",
            "The loader left the PMR fields 0, and tables and image are not wholly in the DPR.",
            "The image lies partly in one region and partly in another, for instance in the DPR and in the low PMR.",
            "The image lies across 4 GiB: the low PMR ends there at the latest, and the high one begins there at the earliest.",
            "The image has grown past the end of the region that was made for it.",
            "The PMRs were made for a host with another amount of memory.",
            "DPR base or size were given wrong: the base is the top minus the size.",
        ],
        technician: &[
            "Compare DPR base and size with the host's DPR register; the size field there is in MiB.",
            "Compare what was found with the three regions that the tool shows. If it is a table page, any one of them must hold all of it.",
            "If it is a page, it is not enough that a region holds it: one and the same must hold all pages of the image.",
            "If the regions are right for this host, hand what was found and the regions to the image's builder.",
        ],
        builder: &[
            "Have the loader ask for one PMR that covers the tables and the whole image, or place all of it inside the DPR. Tables may lie in another \
                region than the image here, but Intel's MLE guide wants one that holds both.",
            "Keep the image wholly below 4 GiB, as Intel's MLE guide asks.",
        ],
    },
    Text {
        number: 21,
        name: "page count",
        meaning: "The tables map another number of pages than MLE Size says.",
        rule: "The number of pages that the walk finds is N = MLE Size / 4096 (64 bits at offset 16 in OsSinitData).",
        causes: &[
            "MLE Size counts the image without its last, partly filled page, or without what follows the loaded file (bss).",
            "Page tables map more than the image, for instance the tables themselves.",
            "No entry is present: the table base points to a page of zeros.",
        ],
        technician: &["If no page was found at all, the window dump does not hold the tables: dump again. Else hand both counts to the builder."],
        builder: &["Let MLE Size and the tables come from the same number, rounded up to whole pages."],
    },
    Text {
        number: 22,
        name: "MLE header",
        meaning: "The MLE header is not mapped, crosses the end of its page, or has a field that does not fit the image.",
        rule: "The header base (64 bits at offset 24 in OsSinitData) is a linear address in a mapped page, at most 4,044 bytes into it. In the \
            52 bytes there: UUID 5A AC 82 90 6F 47 A7 74 0F 5C 55 A2 CB 51 B6 42; HeaderLen at 16 ≥ 52; version 20 ≥ MinMleHeaderVer of the \
            module (E + 28); EntryPoint 24 in the mapped linear range; FirstValidPage 28 = the first linear page's address; MleEnd 36 - \
            MleStart 32 = MLE Size, with MleStart ≤ MleEnd (32 bits each).",
        causes: &[
            "The header base is physical instead of linear, or counts from the file instead of the mapping.",
            "The image was built for another linear base (FirstValidPage, EntryPoint).",
            "MleEnd is the last byte instead of the one after it, or the image was padded after linking.",
            "The kernel or hypervisor is too old for this module (version below MinMleHeaderVer).",
        ],
        technician: &[
            "If it is the MLE header base, heap and window may be of two boots or two images: dump both again from one boot. If it stays so, hand the \
             header base and what was expected to the image's builder.",
            "If the UUID differs, the file is no measured image, or it is loaded at another place: compare with the store's original.",
            "If the version is too low, a newer image or an older module is needed.",
            "If it is HeaderLen, EntryPoint, FirstValidPage or MleEnd, compare the image's checksum with the store's (`sha256sum FILE`). If they differ, copy the \
             image again; else hand the field and both values to the image's builder, since nothing at the rack repairs it.",
        ],
        builder: &[
            "Set the field that the tool names from the mapping that the loader really makes; keep the whole header in one page.",
            "Link the image so that MleEnd - MleStart is its whole size in pages.",
        ],
    },
    Text {
        number: 23,
        name: "policy record",
        meaning: "The policy record does not have 70 bytes, major version 3, HashAlg 0x000B, type LIST or ANY, and in LcpHashAlgMask the bit 0x0008 \
            (SHA-256).",
        rule: concat!(
            "The record is exactly 70 bytes; version at 0 (16 bits) has high byte 3, the low byte is free; HashAlg 2 (16) = 0x000B (SHA-256); type 4 \
             (8) is 0 (LIST) or 1 (ANY); LcpHashAlgMask 28 (16) has the bit 0x0008 (SHA-256), and its other bits are free. ",
            under_any!()
        ),
        causes: &[
            "The record is that of a TPM 1.2 (version 2.x, 54 bytes) or uses SHA-1 or SHA-384.",
            "The record permits other algorithms and not SHA-256, as one made with `--mask sha384` does, or a program left its bytes 28 and 29 at 0.",
            "The file holds the whole NV index with padding, or a policy data file was given instead of the record.",
        ],
        technician: &[
            "`ls -l`: the record has 70 bytes. A file that begins with `Intel(R) TXT LCP_POLICY_DATA` is the policy file, which belongs into the \
             window.",
            "Read the NV index again, 70 bytes from offset 0.",
            "If it is HashAlg (0x0004 is SHA-1, 0x000c SHA-384) or LcpHashAlgMask (0x0001 is SHA-1, 0x0040 SHA-384), the record was made for another \
             algorithm or, with 0 there, for none: ask the store for this host's SHA-256 record, and have it written into the TPM before the restart.",
        ],
        builder: &[
            concat!("Make the record and its policy file anew: ", make_policy!(), ". ", asks_again!()),
            concat!("For a policy of type ANY: `lcp2_crtpol --create --type any ", record!(), "`."),
            "In a description for `bleiwurzel policy write` leave out the key `lcp-hash-alg-mask`, which is 0x0008 then, or give it a number with that bit.",
        ],
    },
    Text {
        number: 24,
        name: "not production",
        meaning: "The SINIT module is not production worthy (a debug or pre-production module), and the policy record does not allow that.",
        rule: concat!(
            "Module flags, 16 bits at 14: bit 14 (pre-production) or bit 15 (debug-signed) is set, and control bit 1 (mask 2) of the record, 32 \
             bits at 22, is clear. ",
            under_any!()
        ),
        causes: &["A debug or pre-production module from a test lab is in the store."],
        technician: &["Replace the module by the vendor's production module. Do not loosen the policy to get the host up."],
        builder: &[
            "Ship production modules.",
            concat!(
                "On test hosts only, set control bit 1 and provision the record anew: ",
                make_policy!("--ctrl 0x02"),
                ". ",
                asks_again!()
            ),
        ],
    },
    Text {
        number: 25,
        name: "module version",
        meaning: "The SINIT module's AcmVersion is below the policy record's SINITMinVersion.",
        rule: concat!(
            "AcmVersion, 8 bits at E + 36 in the module, is at least SINITMinVersion, 8 bits at 5 in the record. ",
            under_any!()
        ),
        causes: &["The policy was raised after a security update, and the image still carries the old module."],
        technician: &["Look whether the store has a newer SINIT module for this chipset; the policy asks for the version shown."],
        builder: &[concat!(
            "Ship a module with at least this AcmVersion, or lower SINITMinVersion in the record if it was raised by mistake. ",
            asks_again!()
        )],
    },
    Text {
        number: 26,
        name: "policy place",
        meaning: "The policy file does not lie wholly in the memory window, or its size is not 36 to 65536 bytes.",
        rule: "Under LIST: policy file base, 64 bits at offset 64 in OsSinitData, and its size, 64 bits at 72; the size is 36 to 65,536, and all \
            its bytes lie in the window.",
        causes: &[
            "The loader did not load the policy file: base and size are 0.",
            "The window was dumped too short to hold it.",
            "The policy is ANY in truth, and the record is stale.",
        ],
        technician: &[
            "If base and size are 0, the boot entry lacks the policy file (the module line for it in the boot loader's configuration).",
            "If the base lies just past the window, dump a larger window.",
            "If a policy file by itself is refused, it is cut off, empty or another file: look at its size (`ls -l FILE`) and copy it from the store \
             again.",
        ],
        builder: &["Load the policy file into the window's memory and write its base and exact size into OsSinitData."],
    },
    Text {
        number: 27,
        name: "policy grammar",
        meaning: "The policy file is not of the grammar: a mark, a version, a count or a size in it is wrong.",
        rule: "File: the 28 characters `Intel(R) TXT LCP_POLICY_DATA` and 4 zeros; 3 zeros; list count at 35 (8 bits), 1 to 8; that many lists \
            from 36 on; nothing after. List: version (16) 0x0200 or 0x0201; signature algorithm (16) 0x0010 or 0x0014; elements size (32); \
            elements that fill it exactly; if signed, counter (16), key size (16) 256 or 384, key, signature. Element: size (32) ≥ 12, type \
            (32), control (32), body. Type 0x10 body: SINITMinVersion (8), reserved (8), HashAlg (16) 0x0004, 0x000B, 0x000C, 0x000D or \
            0x0012, count (16), exactly that many digests. Type 0x14 body: HashAlg, count and digests likewise, and nothing before them. The \
            answer has a place, as 36 in `refused 27 at 36`: the offset of the first field, in file order, whose rule fails or that does not \
            fit. Mark and 4 zeros are one field, the 3 zeros another. A size or a count of digests that reaches past what holds it is wrong \
            itself, and the key size stands for key and signature; what follows the last field of an element, of a list's elements or of the \
            file is named by its first byte.",
        causes: &[
            "The size in OsSinitData is rounded up, so that bytes follow the last list.",
            "The file is a policy list (`.lst`) or a record (`.pol`) instead of the policy data file.",
            "The file has lists of version 0x0300 or signatures other than RSASSA.",
            "The digests of a launch (0x10) or STM (0x14) element are of another length than its HashAlg has, or of another number than its count \
             says, or its HashAlg is not known.",
            "The file is damaged.",
        ],
        technician: &[
            "Run `bleiwurzel policy FILE` on the policy file from the store; where it is wrong, it shows the field with the bytes around it. If it is \
             accepted there, the size in OsSinitData or the loading is wrong; else the file itself.",
            "Look at the place N of `refused 27 at N`, which counts from the file's first byte; in memory that is the policy file base in \
             OsSinitData plus N. If N is 0, this is no policy data file, or it was loaded elsewhere. If N is the file's size, a field is missing \
             there: the file is cut off, its list count (offset 35) is too large, or the size of its last element is too small. If bytes follow the last \
             list, the size in OsSinitData is too large, or the list count too small.",
            "If the file itself is wrong, compare its checksum with the store's (`sha256sum FILE`). If they differ, copy it again; else hand the place, \
             the field and its value to the builder.",
        ],
        builder: &[
            concat!("Make a list of version 0x200 or 0x201, unsigned or signed with RSASSA and 2,048 or 3,072 bits: ", make_list!(), "."),
            concat!("Then make the file of it, and its record: ", make_policy!(), ". ", asks_again!()),
            "In an element that tboot's tools did not make, HashAlg stands at offset 14 if the type is 0x10 and at 12 if it is 0x14, and the digests \
             fill the element up to its end.",
            "Have the loader write the file's exact size, not rounded to pages.",
        ],
    },
    Text {
        number: 28,
        name: "policy hash",
        meaning: "The policy file's lists do not hash to the policy record's PolicyHash.",
        rule: "A list's measure is SHA-256 of its bytes, or of its key's bytes as they stand where it is signed. SHA-256 of the measures, joined \
            in file order, is PolicyHash, 32 bytes at 38 in the record.",
        causes: &[
            "The policy file was updated and the record in the TPM was not, or the other way round.",
            "A list was signed with another key than the one that the record was made for.",
            "The record of another host or another policy was handed over.",
            "Lists were put in another order.",
        ],
        technician: &[
            "Take record and policy file from the same release; compare the two hashes that the tool shows with the release notes.",
            "Read the record from this host's TPM again; if it is the old one, it must be provisioned anew.",
        ],
        builder: &[
            concat!("Make record and file in one run, and roll out both: ", make_policy!(), ". ", asks_again!()),
            concat!("Of unsigned lists ", policy_write!(), "."),
        ],
    },
    Text {
        number: 29,
        name: "no list",
        meaning: "No list of the policy file permits this image.",
        rule: "A list permits if it holds only elements of types 0x10, 3 and 0x14, and one 0x10 element with HashAlg 0x000B names \
            the image's digest and has SINITMinVersion (8 bits at 12 in the element) at most the module's AcmVersion. All of it in one and the \
            same list and element. If the list holds a 0x14 element, some 0x14 element of it with HashAlg 0x000B must name SHA-256 of the STM \
            image too; without an STM image such a list does not permit. If the list is signed, its signature must verify too, and its counter \
            must be at least the record's for this list: 16 bits at 6 + 2·i in the record for list i, all lists counted from 0. The signature \
            is RSASSA-PKCS1-v1_5 with SHA-256 and exponent 65,537 over all bytes of the list before it: header, elements, counter, key size and \
            key. Key and signature stand with their lowest byte first.",
        causes: &[
            "The image was updated and the policy was not: its digest is in no element.",
            "tboot's tools write `custom` elements with type 0x13, not 3. Type 0x13 is not judged, so a list that holds one does not permit, even \
             if another element of it names the image.",
            "A signed list was changed after it was signed, or was signed with another hash than SHA-256, so that its signature does not verify.",
            "The counter of a signed list is below the record's: an older policy file is loaded, or the list was signed with too low a `--rev`, or \
             without it, which makes the counter 0.",
            "The list holds a platform configuration element (0x11), which this check does not judge.",
            "The list holds an STM element (0x14), and no STM image was handed over: the host has no STM, or `--stm` was left out, or a capture was \
             checked, which has none.",
            "The STM was updated and the policy was not, or the STM file is not exactly the STM's static image.",
            "The digest is named with SHA-1, SHA-384 or another algorithm only.",
            "The element asks for a newer SINIT module than the image carries.",
        ],
        technician: &[
            "Compare the image's digest that the tool shows with the digests of `bleiwurzel policy FILE`. If it is not among them, image and \
             policy are of different releases.",
            "If it is among them, look at the reasons that the tool gives for each list: another type (0x13 is tboot's `custom`), another \
             algorithm, SINITMinVersion, the STM image, the counter, the signature.",
            "If a counter is too low, load the newest policy file from the store. If its counter is too low as well, hand the list's number and both \
             counters to the builder. The record refuses older lists on purpose, so do not lower its counter.",
            "If a signature does not verify, run `bleiwurzel policy FILE` on the policy file from the store, which says it of every signed list and \
             needs no record. If it verifies there, load that file again; else hand the list's number to the builder.",
            "If an STM image is missing and the host has an STM, hand it over: `bleiwurzel check --stm FILE ..`. If the host has none, it needs a policy \
             with a list without STM elements.",
            "If the STM image is not named, compare its digest with those of the `stm` elements that `bleiwurzel policy FILE` shows. The file must have \
             as many bytes as StaticImageSize says, 32 bits at 2052 in it, and be of the release of the policy.",
        ],
        builder: &[
            "Write the digest shown into a file, with a blank after every two digits: `echo DIGEST | sed 's/../& /g' > digest.txt`.",
            "Make an element of it: `lcp2_crtpolelt --create --type mle2 --alg sha256 --out mle.elt digest.txt`. The type is `mle2`; `mle` is a legacy \
             element, which does not permit.",
            concat!("Put it into a list that holds nothing but `mle2`, `stm` and type 3 elements: ", make_list!(), "."),
            "For hosts with an STM, write the STM image's digest (`sha256sum FILE`) into a file of its own: `echo STM-DIGEST | sed 's/../& /g' > stm.txt`.",
            concat!(
                "Make an element of that, `lcp2_crtpolelt --create --type stm --alg sha256 --out stm.elt stm.txt`, and put both into one list: ",
                make_list!(" stm.elt"),
                "."
            ),
            "Hosts without an STM need another list, without `stm` elements.",
            "Put `custom` elements of tboot's tools (type 0x13) into a list of their own, or write them with type 3.",
            "If the site signs, make a key once, `openssl genrsa -out key.pem 2048`, and its public half, `openssl rsa -in key.pem -pubout -out public.pem`. \
             3,072 bits will do too; then the record is made with `--sign rsa-3072-sha256`, which SINIT looks at and this check does not.",
            "Sign the finished list, with the counter that the record asks for or a greater one: `lcp2_crtpollist --sign --sigalg rsa --pub public.pem --priv \
             key.pem --rev COUNTER --out policy.lst`. After any change, of the counter too, sign it again. Leave out `--hashalg`: only SHA-256 \
             verifies here.",
            concat!(
                "Then make policy file and record anew, since PolicyHash changes: ",
                make_policy!(),
                ". If the old record asks for counters (16 bits a list from offset 6 on), give them again with `--rev`: without it the new record \
                 asks for 0, and older signed lists permit again. The same holds of SINITMinVersion (8 bits at 5), `--minver` and older modules."
            ),
            concat!(
                "If older signed lists must no longer permit, have the record ask for the new counter: ",
                make_policy!("--rev COUNTER"),
                ". With several lists, give one counter for each in their order, with commas between, and any number for an unsigned one."
            ),
            concat!("Of unsigned lists that hold only types 0x10 and 3, ", policy_write!(), ", and a line `launch` the image's digest."),
            "A list that is signed again with the same key leaves PolicyHash as it was: if no other list of the file changes, and the record's \
             counters stay, only the policy file is rolled out.",
        ],
    },
    Text {
        number: 30,
        name: "capture",
        meaning: "The file is no capture: its mark, version, count of reserved ranges or lengths are wrong, or it has over 65536 bytes.",
        rule: "A capture is the mark `LPC`, a version (16 bits at 3) of 1 or 2, the platform (six 64-bit numbers from 5, three 16-bit numbers from 53), \
            four lengths (32 bits each from 59), then the four parts; 75 bytes plus the lengths is the file's size, at most 65,536. Version 2 has a \
            count of reserved ranges (16 bits at 59, at most 16) and that many pairs of base and size (64 bits each from 61) before the \
            lengths, which begin at 61 + 16·count; its head, all that is before the parts, has 77 + 16·count bytes.",
        causes: &[
            "Another file was given, or the transfer cut it off or changed line ends.",
            "The image is too large for a capture.",
            "A newer program wrote the file, with a version that this one does not know.",
        ],
        technician: &[
            "Copy the file again in binary mode and compare checksums (`sha256sum FILE`).",
            "For images over 64 KiB hand over the parts instead: `bleiwurzel check --window FILE --heap FILE ..`.",
            "If it is the version or the count of reserved ranges, and the checksums agree, have whoever sent the file make it again with the release of the \
             tool that is used here.",
        ],
        builder: &["Write captures with `bleiwurzel capture make`."],
    },
    Text {
        number: 31,
        name: "policy description",
        meaning: "The description of a policy file is outside the grammar, or an element has another type than 0x10 and 3.",
        rule: "A description has 1 to 8 lists, all unsigned, each of version 0x0200 or 0x0201 and with any number of elements; an element has \
            type 0x10 or 3, any control, and a body. The body of type 0x10 is as 27 asks, with a count that agrees with its digests; that of type \
            3 is free. What the sizes of an element and of a list's elements count fits into their 32 bits. To the library a description is \
            numbers (how many lists; of each its version and how many elements; of each of these type, control and length of the body) and the \
            bodies, one behind the other, with nothing missing and nothing over. The record's fields are not judged. On 31, 32 and 33 nothing is \
            written.",
        causes: &[
            "The description has no list, or a ninth one.",
            "A list has another version, as 0x0300.",
            "An element of another type is asked for, as an STM element (0x14), or a file with `custom` elements of tboot's tools, whose type \
             is 0x13, is to be written again.",
            "The count of a 0x10 body is another than that of its digests, or these are not as long as those of its HashAlg.",
            "A program hands over lengths that do not add up.",
        ],
        technician: &[
            "The host is not at fault, and no file was changed: keep the policy file and the record that it has.",
            "Look at the line that the tool names, and at the help of `bleiwurzel policy write`, which has a whole description to copy.",
            "If another program made the description, hand number and description to whoever maintains that program.",
        ],
        builder: &[
            "Begin each list with a line of its own, `list version=0x0201`, and have at most eight of them.",
            "Write elements of types 0x10 and 3 only, which are the lines `launch` and `custom`. A list with STM elements and a signed one are made \
             by tboot's tools; the text of 29 has their command lines. A list with an element of type 0x13 does not permit here.",
            "To change a policy file that is there, have its description printed, change a line of that and write it again: `bleiwurzel policy show \
             --as-description FILE --policy-record RECORD`. Without the old record, the new one asks for counters and a SINITMinVersion of 0, \
             unless lines of the description say otherwise.",
            "A program that calls `bleiwurzel_policy_write` hands over 1 number, 2 more for each list and 3 more for each element, and as many bytes of \
             bodies as the lengths make together.",
        ],
    },
    Text {
        number: 32,
        name: "policy size",
        meaning: "The policy file that is described would have over 65536 bytes.",
        rule: "36 bytes, 8 more for each list, 12 more for each element and all bodies are at most 65,536 together, which is the most that 26 lets \
            pass. A body of type 0x10 has 6 bytes and those of its digests. It is tried after 31.",
        causes: &[
            "The lists name too many digests: one launch element alone has place for 2,046 of SHA-256.",
            "A whole file was given as the body of a custom element.",
        ],
        technician: &[
            "Nothing was written, and the host's policy is as it was.",
            "Look at the line with which the file grows too long, and hand it to whoever writes the description.",
        ],
        builder: &[
            "Leave out the digests of images that no host starts any more, and all that are not of SHA-256: others never permit here.",
            "Divide the hosts into groups, each with a policy file and a record of its own.",
            "Keep large data elsewhere, and put its digest into the custom element.",
        ],
    },
    Text {
        number: 33,
        name: "policy room",
        meaning: "The buffer that the caller lends has fewer bytes than the policy file.",
        rule: "The file has at most as many bytes as the buffer into which it is to be written. It is tried after 32. The buffer keeps every byte, and \
            length and record are zeros.",
        causes: &["A program lends a buffer for the files that it knew, and this one is longer."],
        technician: &[
            "Only a program that calls the library meets this: `bleiwurzel policy write` lends room for every file. Write the policy with it, or hand \
             the description to whoever maintains the program.",
        ],
        builder: &["Lend 65,536 bytes, `BLEIWURZEL_MOST_POLICY` in C and `policy::MOST` in Rust: with as many 33 is never answered."],
    },
];
