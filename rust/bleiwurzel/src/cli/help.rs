//! What `--help` prints on each level, in at most 80 columns.

pub const MAIN: &str = "\
bleiwurzel says before a measured host goes down whether its next Intel TXT
launch will succeed.

Usage:
  bleiwurzel check ..       permitted or refused, for parts in files or for one
                            capture file
  bleiwurzel policy FILE    the reading of a policy file, list by list
  bleiwurzel policy write ..
                            a policy file and its record from a description
  bleiwurzel capture ..     make a capture file of the parts, or show one
  bleiwurzel refusals [N]   what every refusal means and what to do; with a
                            number, that one

Every command has its own --help with examples, and --json for programs. A FILE
of - is standard input, or standard output for --output and --record. Behind the
command (of captures behind make or show) -- ends its flags.

Exit status: 0 permitted (or shown, written), 1 refused, 2 no answer; then
standard error says what to do. Of check 0 means permitted and nothing else.

Begin with a capture that somebody sent you:
  bleiwurzel check --capture host17.cap

or with the parts of an image:
  bleiwurzel check --help
";

pub const CHECK: &str = "\
bleiwurzel check: will the next launch succeed?

Usage:
  bleiwurzel check --window FILE --heap FILE --sinit FILE --policy-record FILE
                   [--stm FILE] --platform FILE [--reserved-from FILE] [--json]
  bleiwurzel check --capture FILE [--json]

The parts:
  --window FILE          the memory from the window base on, at most 128 MiB:
                         page tables, image and, under a LIST policy, the
                         policy file
  --heap FILE            the TXT heap from its first byte on, at most 1 MiB
  --sinit FILE           the SINIT module, of header version 0.0 or 3.0
  --policy-record FILE   the policy record of the TPM, 70 bytes
  --stm FILE             the STM image, at most 16 MiB: exactly the bytes that
                         SINIT measures, which are the STM's static image.
                         Without an STM leave it out; then a list that holds
                         STM elements (type 0x14) does not permit
  --capture FILE         all parts but an STM image, and the platform, in one
                         file of at most 65536 bytes

The platform, by a file or by flags; a flag counts more than the file. Numbers
are decimal, or hexadecimal with 0x:
  --platform FILE        lines of the form key = value, with # for comments
  --window-base N        physical address of the window's first byte
  --heap-base N          TXT.HEAP.BASE
  --sinit-base N         TXT.SINIT.BASE
  --dpr-base N           the DMA protected range: its top minus its size
  --dpr-size N           its size in bytes; 0 for none
  --acram-capacity N     the most bytes of an authenticated module, by
                         GETSEC[PARAMETERS]
  --vendor N, --device N, --revision N
                         the chipset, TXT.DIDVID: bits 0 to 15, 16 to 31 and
                         32 to 47
  --reserved BASE+SIZE   memory that no table and no page may touch (17); may be
                         given several times, and is added to what the file
                         has, up to 16 ranges in all. Where none is given, only
                         the range 0xA0000 to 0xFFFFF, heap and SINIT module are
                         kept clear
  --reserved-from FILE   reserves all of the window but what a memory map of the
                         host lists as usable memory, and as nothing else:
                         /proc/iomem, read as root, or the kernel's log with its
                         lines BIOS-e820. Ranges that adjoin count as one. The
                         map may list the DPR, the TXT heap and SINIT memory as
                         reserved, and then an image in the DPR is refused with
                         17: for such an image give ranges by --reserved
                         instead. The map of a host that the image itself has
                         started may list the image's own place as reserved, and
                         then a good image is refused with 17: take the map of a
                         start without it, or give ranges by --reserved

A platform file:
  window_base = 0x100000
  heap_base = 0x300000
  sinit_base = 0x200000
  dpr_base = 0x100000
  dpr_size = 0x100000
  acram_capacity = 0x8000
  vendor = 0x8086
  device = 0xb002
  revision = 1
  reserved = 0x7f000000+0x800000
  reserved = 0xe0000000+0x10000000

Answers:
  permitted   the image's pages as ranges of physical memory, the policy list
              that permits (counted from 0; none under ANY), and SHA-256 over
              the pages; where there are reserved ranges, also of how many
              the image is clear (in JSON \"reserved\", also where it is 0).
              Exit status 0.
  refused     the number, what it means, what was found and where, and what to
              do. Exit status 1. The number is the proved check's, and so is
              the place of a 27, as in \"refused 27 at 36\": the offset of the
              policy file's first wrong field (in JSON \"place\", which is 0 with
              every other number). What was found is worked out beside it;
              where that cannot say, it says nothing.
  no answer   the call was wrong, or a file cannot be read; standard error says
              what to do. Exit status 2, for this help too.

Examples:
  A capture, for people and for programs (one JSON object on one line):
    bleiwurzel check --capture host17.cap
    bleiwurzel check --capture host17.cap --json
  A larger image by its parts:
    bleiwurzel check --window window.bin --heap heap.bin --sinit sinit.bin \\
        --policy-record record.bin --platform host17.txt
  The same on a host with an STM:
    bleiwurzel check .. --platform host17.txt --stm stm.bin
  The same, if there were no DPR:
    bleiwurzel check .. --platform host17.txt --dpr-size 0
  The same, in nothing but what the host's memory map lists as usable memory:
    bleiwurzel check .. --platform host17.txt --reserved-from iomem.txt
";

pub const POLICY: &str = "\
bleiwurzel policy: the reading of a policy file (LCP policy data), in the manner
of tboot's lcp2_crtpol --show.

Usage:
  bleiwurzel policy [show] FILE [--json]
  bleiwurzel policy show --as-description FILE [--policy-record FILE] [--json]
  bleiwurzel policy write ..    a policy file from a description; see its --help

It shows every list with its elements, digests, key and signature, each with its
offset in the file, whether the signature verifies, and whether the list can
permit an image at all; one that holds STM elements can only with an STM image
that it names, and a signed one only under a record that asks for no greater
counter. Exit status 0.

A file of fewer than 36 or more than 65536 bytes is refused with 26, one that is
not of the grammar with 27 and the place of the first wrong field, its offset
from the file's first byte: \"refused 27 at 38\". Then the field is named, with
what was expected and found there, and its bytes are marked in a few lines of
the file; in JSON the place is the number \"place\". Exit status 1.

What keeps a list from permitting, and what tboot's tools have to do with it:
bleiwurzel refusals 29

With --as-description it prints what bleiwurzel policy write makes the same file
of, byte for byte (in JSON as the text \"description\"); with --policy-record
FILE, a record of 70 bytes, the fields of that too. A file with a signed list,
or with an element of a type other than 0x10 and 3, has no description: standard
error names the list and the element. Exit status 2.

A file whose name is show or write is called ./show or ./write.

Examples:
  bleiwurzel policy list.data
  bleiwurzel policy list.data --json
  Change a policy:
    bleiwurzel policy show --as-description list.data \\
        --policy-record list.pol > policy.txt
    bleiwurzel policy write -o new.data --record new.pol policy.txt
  Is this image's digest in the policy?
    bleiwurzel policy list.data | grep dd311d9b
";

pub const POLICY_WRITE: &str = "\
bleiwurzel policy write: a policy file of unsigned lists, and its policy record
with the right PolicyHash, from a description.

Usage:
  bleiwurzel policy write -o FILE --record FILE DESCRIPTION [--json]

  -o FILE, --output FILE   the policy file that is to be written
  --record FILE            the policy record of 70 bytes that is to be written
  DESCRIPTION              a text file of at most 1 MiB, or - for standard input

Both files are written or none, and none that is there already is overwritten.
One of them may be -, for standard output.

A description has a line for each list and each element, in the order of the
file, and lines for the record. A line is a word and words key=value, with
blanks between and none within. A word that begins with # begins a comment.
Numbers are decimal, or hexadecimal with 0x; bytes are hexadecimal digits, two
for each. A key that is left out has the value that is shown here:

  record                   the policy record; may be several lines, or none
    version=0x0302         16 bits; the check wants 3 in the high byte
    hash-alg=sha256        or a number; PolicyHash is SHA-256 all the same
    type=list              list, any or a number
    sinit-min-version=0    8 bits: the least AcmVersion of a SINIT module
    counters=0,0,0,0,0,0,0,0
                           one for each list, which a signed one must reach
    control=0              32 bits; 2 allows a debug or pre-production module
    max-sinit-min-version=255
                           8 bits
    reserved=0             8 bits, at offset 27
    lcp-hash-alg-mask=0x0008
                           16 bits; the check wants the bit 8, SHA-256
    lcp-sign-alg-mask=0x00000008
                           32 bits; 8 is RSA of 2,048 bits with SHA-256
    reserved2=0            32 bits, at offset 34
  list                     begins a list; 1 to 8 of them
    version=0x0201         0x0200 or 0x0201
  launch                   an element of type 0x10, which names images
    control=0              32 bits
    sinit-min-version=0    8 bits
    reserved=0             8 bits
    hash-alg=sha256        sha1, sha256, sha384, sha512 or sm3-256
    digest=..              any number of times: the digest's digits or, of
                           sha256, @ and the name of the file with the image,
                           whole pages of 4096 bytes
  custom                   an element of type 3, with any bytes
    control=0              32 bits
    body=..                must be given: digits, or @ and the name of a file

Names of files behind @ count from the description's folder, or from the current
one where the description is standard input. The record is written as it is
asked for; if bleiwurzel check refuses every image with it (23), standard error
says so. Where an old record asks for counters or a sinit-min-version, give
these again: without them the new one asks for 0, and what was revoked passes.
tboot's tools write custom elements with type 0x13, which cannot be written
here.

A description:
  # Hosts 17 to 20.
  record sinit-min-version=1
  list
  launch digest=@image.bin
  launch digest=b3f4315730049bde635935a7c5477b129df592e0a5a86dbd9886a57af0b1b399
  list version=0x0200
  launch hash-alg=sha1 digest=da39a3ee5e6b4b0d3255bfef95601890afd80709
  custom body=00112233 # for the site's own tools

Answers:
  written     both files, and PolicyHash. Exit status 0.
  refused     31 if the description is outside the grammar, 32 if the file would
              have over 65536 bytes, with the line that is at fault; on standard
              error if one of the files is -. Exit status 1. The number is the
              proved library's; no text of this form leads to 33.
  no answer   a line cannot be read, as in \"policy.txt:7: ..\", or a file cannot
              be read or written. Exit status 2.

Examples:
  bleiwurzel policy write -o policy.data --record policy.pol policy.txt
  A description to begin with, of a policy file that is there:
    bleiwurzel policy show --as-description list.data --policy-record list.pol
";

pub const CAPTURE: &str = "\
bleiwurzel capture: all that a check needs in one file of at most 65536 bytes,
to send or to keep.

Usage:
  bleiwurzel capture make ..      parts and platform to a capture file
  bleiwurzel capture show FILE    the platform and the parts of a capture file

Both have --help. A capture is checked by: bleiwurzel check --capture FILE
Images over 64 KiB do not fit, nor does an STM image; check the parts instead,
see bleiwurzel check --help
";

pub const CAPTURE_MAKE: &str = "\
bleiwurzel capture make: parts and platform to a capture file.

Usage:
  bleiwurzel capture make --window FILE --heap FILE --sinit FILE
                          --policy-record FILE --platform FILE --output FILE
                          [--json]

Parts and platform are given as for bleiwurzel check; see its --help. A capture
has no place for an STM image: --stm is refused. Nothing is judged here: a
capture may be of an image that is refused. A file that is there already is not
overwritten, and the capture has its name only when it is whole. With --output -
it goes to standard output, where --json cannot write too.

With reserved ranges the capture has version 2, without them version 1. 75 bytes
and the parts must be at most 65536; reserved ranges take 2 bytes more and 16
for each.

Example:
  bleiwurzel capture make --window window.bin --heap heap.bin \\
      --sinit sinit.bin --policy-record record.bin --platform host17.txt \\
      --output host17.cap
";

pub const CAPTURE_SHOW: &str = "\
bleiwurzel capture show: the platform and the parts of a capture file.

Usage:
  bleiwurzel capture show FILE [--json]

The plain output is itself a platform file, with the reserved ranges. Exit
status 1 where the file is no capture, with the field that is wrong.

Examples:
  bleiwurzel capture show host17.cap
  Take the platform for a check of other parts:
    bleiwurzel capture show host17.cap > host17.txt
    bleiwurzel check .. --platform host17.txt
";

pub const REFUSALS: &str = "\
bleiwurzel refusals: what every refusal means, its usual causes, what a
technician checks and what the image's builder changes.

Usage:
  bleiwurzel refusals [NUMBER] [--json]

Without a number it prints the page docs/REFUSALS.md.

Examples:
  bleiwurzel refusals 29
  bleiwurzel refusals | less
";
