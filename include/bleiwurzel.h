/*
 * Bleiwurzel: whether the next Intel TXT launch will succeed. The interface of libbleiwurzel.a for C11 and C++.
 *
 * What is lent. Every pointer to `const` is lent for reading during the call and not kept; a length behind it, where there is one, counts what it
 * points to. Every pointer without `const` is lent for writing during the call; what is written there is said at each function. Memory that is
 * written may not overlap memory that is read or written under another name in the same call. A part of length 0 is allowed everywhere; its
 * pointer is not followed but must not be NULL (any object's address will do).
 *
 * What is asked of the caller. Nothing else: every function answers for every content and every number, ends, allocates nothing, has no state
 * of its own and may be called from several threads at once. No address is followed but those of the arguments; physical addresses are numbers.
 *
 * A physical address p is byte (p - window_base) of the window. All numbers in the images are little-endian.
 */
#ifndef BLEIWURZEL_H
#define BLEIWURZEL_H

#include <stdbool.h>
#include <stddef.h>
#include <stdint.h>

#ifdef __cplusplus
extern "C" {
#endif

/* The numbers of an answer, in the order in which they are tried; 14 to 20 follow the walk through the page tables. Rules 26 to 29 are tried
 * under a LIST policy only. 31 to 33 are those of bleiwurzel_policy_write, and of no other function. docs/REFUSALS.md has causes and
 * remedies. */
enum bleiwurzel_number {
    /* The launch is permitted. */
    BLEIWURZEL_PERMITTED = 0,
    /* The window base is no multiple of 4096, the window is over 128 MiB, the heap is over 1 MiB, the STM image is over 16 MiB, there are over
     * 16 reserved ranges, or base plus size of window, heap, DPR or a reserved range is over 2^52. */
    BLEIWURZEL_LIMITS = 1,
    /* BiosData, OsMleData and OsSinitData do not fit into the heap, one behind the other. */
    BLEIWURZEL_HEAP_PARTS = 2,
    /* OsSinitData has fewer than 108 bytes, or its version is neither 6 nor 7. */
    BLEIWURZEL_OSSINITDATA = 3,
    /* The elements at the end of OsSinitData are malformed: one has a wrong size, or none ends the list. */
    BLEIWURZEL_HEAP_ELEMENTS = 4,
    /* A PMR in use lies on the wrong side of 4 GiB, or the high one ends above 2^52. */
    BLEIWURZEL_PMR = 5,
    /* The SINIT module's base or length is not one from which a processor starts it. */
    BLEIWURZEL_MODULE_PLACE = 6,
    /* The SINIT module's header has a wrong type, header length, version, vendor, size or key size. */
    BLEIWURZEL_MODULE_HEADER = 7,
    /* The GDT, the entry point or the segment selector in the SINIT module's header points to a wrong place. */
    BLEIWURZEL_MODULE_ENTRY = 8,
    /* The SINIT module's information table or its chipset list is malformed or not inside the module. */
    BLEIWURZEL_MODULE_TABLE = 9,
    /* No entry of the SINIT module's chipset list matches the platform's chipset. */
    BLEIWURZEL_CHIPSET = 10,
    /* The version of OsSinitData is above the one that the SINIT module knows. */
    BLEIWURZEL_OSSINITDATA_VERSION = 11,
    /* MLE Size is 0, no multiple of 4096, or over 16384 pages. */
    BLEIWURZEL_MLE_SIZE = 12,
    /* The page list that the caller lends has fewer places than the image has pages. */
    BLEIWURZEL_PAGE_LIST = 13,
    /* A present table entry has a bit set that must be 0, or the page table base is no multiple of 4096. */
    BLEIWURZEL_ENTRY_BITS = 14,
    /* A table or a page does not lie wholly inside the memory window. */
    BLEIWURZEL_OUTSIDE_WINDOW = 15,
    /* An address in the tables is not above the one found before it. */
    BLEIWURZEL_NOT_ASCENDING = 16,
    /* A table or a page touches 0xA0000 to 0xFFFFF, the heap, the SINIT module or a reserved range of the platform. */
    BLEIWURZEL_FORBIDDEN_RANGE = 17,
    /* The tables take a 41st page, the pointer table and the directories counted. */
    BLEIWURZEL_TABLE_PAGES = 18,
    /* The image's linear pages do not follow one another: there is a gap. */
    BLEIWURZEL_LINEAR_GAP = 19,
    /* A table page lies wholly in none of DPR, low PMR and high PMR, or none of these holds all pages of the image. */
    BLEIWURZEL_NOT_PROTECTED = 20,
    /* The tables map another number of pages than MLE Size says. */
    BLEIWURZEL_PAGE_COUNT = 21,
    /* The MLE header is not mapped, crosses the end of its page, or has a field that does not fit the image. */
    BLEIWURZEL_MLE_HEADER = 22,
    /* The policy record does not have 70 bytes, major version 3, HashAlg 0x000B, type LIST or ANY, and in LcpHashAlgMask the bit 0x0008
     * (SHA-256). */
    BLEIWURZEL_POLICY_RECORD = 23,
    /* The SINIT module is not production worthy (a debug or pre-production module), and the policy record does not allow that. */
    BLEIWURZEL_NOT_PRODUCTION = 24,
    /* The SINIT module's AcmVersion is below the policy record's SINITMinVersion. */
    BLEIWURZEL_MODULE_VERSION = 25,
    /* The policy file does not lie wholly in the memory window, or its size is not 36 to 65536 bytes. */
    BLEIWURZEL_POLICY_PLACE = 26,
    /* The policy file is not of the grammar: a mark, a version, a count or a size in it is wrong. */
    BLEIWURZEL_POLICY_GRAMMAR = 27,
    /* The policy file's lists do not hash to the policy record's PolicyHash. */
    BLEIWURZEL_POLICY_HASH = 28,
    /* No list of the policy file permits this image. */
    BLEIWURZEL_NO_LIST = 29,
    /* The file is no capture: its mark, version, count of reserved ranges or lengths are wrong, or it has over 65536 bytes. */
    BLEIWURZEL_CAPTURE = 30,
    /* The description of a policy file is outside the grammar, or an element has another type than 0x10 and 3. */
    BLEIWURZEL_POLICY_DESCRIPTION = 31,
    /* The policy file that is described would have over 65536 bytes. */
    BLEIWURZEL_POLICY_SIZE = 32,
    /* The buffer that the caller lends has fewer bytes than the policy file. */
    BLEIWURZEL_POLICY_ROOM = 33
};

/* The list of an answer where no list permits: on every refusal, and under an ANY policy. */
#define BLEIWURZEL_NO_LIST_INDEX 255u

/* The most pages that an image can have: with as many places in the page list, 13 is never answered. */
#define BLEIWURZEL_MOST_PAGES 16384u

/* The most pages of tables, the table base and the directories counted. */
#define BLEIWURZEL_MOST_TABLES 40u

/* The most reserved ranges of a platform. */
#define BLEIWURZEL_MOST_RESERVED 16u

/* How many places the programs for captures lend: with as many, a capture gets the answer that they print. */
#define BLEIWURZEL_CAPTURE_PLACES 4096u

/* Bytes: the most of a memory window, of a TXT heap, of an STM image and of a capture file, the least and the most of a policy file, those of a
 * policy record, and those of it that stand before its PolicyHash. */
#define BLEIWURZEL_MOST_WINDOW (128u << 20)
#define BLEIWURZEL_MOST_HEAP (1u << 20)
#define BLEIWURZEL_MOST_STM (16u << 20)
#define BLEIWURZEL_MOST_CAPTURE 65536u
#define BLEIWURZEL_LEAST_POLICY 36u
#define BLEIWURZEL_MOST_POLICY 65536u
#define BLEIWURZEL_RECORD_LENGTH 70u
#define BLEIWURZEL_RECORD_FIELDS 38u

/* The offset of the first list of every policy file. */
#define BLEIWURZEL_FIRST_LIST 36u

/* A range of physical memory: its first byte, and its size in bytes. With size 0 it reserves nothing. */
struct bleiwurzel_range {
    uint64_t base;
    uint64_t size;
};

/* The platform, as chipset registers and firmware report it. */
struct bleiwurzel_platform {
    uint64_t window_base;    /* physical address of the window's first byte */
    uint64_t heap_base;      /* physical address of the TXT heap (TXT.HEAP.BASE) */
    uint64_t sinit_base;     /* physical address of the SINIT module (TXT.SINIT.BASE) */
    uint64_t dpr_base;       /* DMA protected range: first byte .. */
    uint64_t dpr_size;       /* .. and size in bytes; 0 if there is none */
    uint64_t acram_capacity; /* the most bytes of an authenticated module (GETSEC[PARAMETERS]) */
    uint16_t vendor;         /* chipset vendor, device and revision (TXT.DIDVID) */
    uint16_t device;
    uint16_t revision;
    uint32_t reserved_count; /* how many ranges, besides 0xA0000 to 0xFFFFF, heap and module, no table and no page may touch; none if zeroed */
    struct bleiwurzel_range reserved[BLEIWURZEL_MOST_RESERVED]; /* they may overlap each other; those past the count are ignored */
};

/* The answer. On a refusal pages is 0, list 255 and the digest all zero. */
struct bleiwurzel_answer {
    uint32_t number;    /* 0 permitted, else the refusal; see enum bleiwurzel_number */
    uint32_t pages;     /* N, how many pages the image has, which is MLE Size / 4096 */
    uint32_t list;      /* the lowest list that permits, counted from 0; 255 under ANY */
    uint32_t place;     /* on 27 which field of the policy file is wrong: its offset; 0 for every other number */
    uint8_t digest[32]; /* SHA-256 over the N pages in linear order */
};

/*
 * The place of a 27 (BLEIWURZEL_POLICY_GRAMMAR) is the offset, counted from the policy file's first byte, of the first field in file order whose
 * rule fails or that does not fit. A size, or the count of digests of an element, that reaches past what holds it is that field's own fault; the
 * key size answers for key and signature together. The mark with its 4 zeros is one field, the 3 zeros before the list count another. Bytes that
 * follow the last field of an element, of a list's elements or of the file give the offset of the first of them. So a place can be 0, and where
 * a field is missing at the file's end it is the file's length. With every other number the place is 0.
 */

/* ---- The check ---------------------------------------------------------------------------------------------------------------------- */

/*
 * Whether the next launch will succeed.
 *
 * Lent for reading: window, heap, sinit (the SINIT module, of header version 0.0 or 3.0), record (the policy record of 70 bytes) and stm (the
 * STM image), each with its length in bytes. The ten numbers after them are the platform's, in the order of struct bleiwurzel_platform. Lent for
 * reading behind them: reserved, always 32 numbers, which are base and size in turn of 16 reserved ranges. The first reserved_count of the ranges
 * count, and the others may hold anything; a reserved_count over 16 is refused with 1.
 * The policy file of a LIST policy is read from the window, where OsSinitData says it is. A signed list of it permits like an unsigned one if its
 * signature verifies (see bleiwurzel_rsa_verify) and its counter is at least the one that the record has for the list of its number.
 * The STM image is exactly the bytes that SINIT measures: the STM's static image, from the first byte of MSEG on and as long as the STM's header
 * says. All of what is lent is hashed, and no field of it is read. With no STM its length is 0. It is hashed at most once, and only where a list
 * that permits otherwise holds an STM element (type 0x14); under ANY it never is.
 * Written: pages, a list of `places` 64-bit numbers: on a permission (0) its first counts[0] places get the physical addresses of the pages in
 * linear order and its other places stay; on a refusal every place stays. counts always: [0] the number of pages, [1] the list. place always:
 * the place of a 27, else 0. digest always: the digest of the pages. On a refusal counts gets 0 and 255, and digest 32 zeros.
 * Answers 0 to 29; never 30.
 */
uint32_t bleiwurzel_check(const uint8_t *window, size_t window_length, const uint8_t *heap, size_t heap_length, const uint8_t *sinit,
                          size_t sinit_length, const uint8_t *record, size_t record_length, const uint8_t *stm, size_t stm_length,
                          uint64_t window_base, uint64_t heap_base, uint64_t sinit_base, uint64_t dpr_base, uint64_t dpr_size,
                          uint64_t acram_capacity, uint16_t vendor, uint16_t device, uint16_t revision, uint32_t reserved_count,
                          const uint64_t reserved[32], uint64_t *pages, size_t places, uint32_t counts[2], uint32_t place[1],
                          uint8_t digest[32]);

/*
 * The same for a capture file: the mark `LPC`, 16-bit version 1, the platform's first nine numbers, four 32-bit lengths (window, heap, module,
 * record), the four parts; 75 bytes before the parts, at most 65536 in all, nothing after. In version 2 a 16-bit count of reserved ranges, at most
 * 16, and that many pairs of 64-bit base and size stand before the lengths; so it has 77 bytes and 16 for each range before the parts. A capture has
 * no STM image.
 *
 * Lent for reading: capture. Written: as by bleiwurzel_check.
 * Answers 0 to 30; 30 where the bytes are no capture.
 */
uint32_t bleiwurzel_check_capture(const uint8_t *capture, size_t capture_length, uint64_t *pages, size_t places, uint32_t counts[2],
                                  uint32_t place[1], uint8_t digest[32]);

/*
 * bleiwurzel_check, which also hands out the digest of the pages where no list permits them (29), so that it can be put into a list without
 * hashing the image again.
 *
 * Lent for reading: as by bleiwurzel_check. Written: as by bleiwurzel_check, so that digest gets 32 zeros on 29 too. measurement always: the
 * digest of the pages on 0 and on 29, 32 zeros on every other refusal.
 * Answers 0 to 29; never 30.
 */
uint32_t bleiwurzel_check_measured(const uint8_t *window, size_t window_length, const uint8_t *heap, size_t heap_length,
                                   const uint8_t *sinit, size_t sinit_length, const uint8_t *record, size_t record_length,
                                   const uint8_t *stm, size_t stm_length, uint64_t window_base, uint64_t heap_base, uint64_t sinit_base,
                                   uint64_t dpr_base, uint64_t dpr_size, uint64_t acram_capacity, uint16_t vendor, uint16_t device,
                                   uint16_t revision, uint32_t reserved_count, const uint64_t reserved[32], uint64_t *pages,
                                   size_t places, uint32_t counts[2], uint32_t place[1], uint8_t digest[32], uint8_t measurement[32]);

/* ---- The reader of policy files ----------------------------------------------------------------------------------------------------- */

/*
 * Whether a string is a policy file: 0 if it is, 26 if it does not have 36 to 65536 bytes, else 27 (not of the grammar).
 *
 * Lent for reading: file. Written: lists[0], the number of its lists (1 to 8), or 0 where it is refused; place[0], the place of a 27, else 0.
 */
uint32_t bleiwurzel_policy(const uint8_t *file, size_t file_length, uint64_t lists[1], uint64_t place[1]);

/* What bleiwurzel_policy_list and bleiwurzel_policy_list_at answer, and what they write where. Offsets count from the file's first byte. */
enum { BLEIWURZEL_LIST_NONE = 0, BLEIWURZEL_LIST_UNSIGNED = 1, BLEIWURZEL_LIST_SIGNED = 2 };
enum {
    BLEIWURZEL_LIST_OFFSET = 0,
    BLEIWURZEL_LIST_SIZE = 1,     /* the whole list, key and signature included */
    BLEIWURZEL_LIST_VERSION = 2,  /* 0x0200 or 0x0201 */
    BLEIWURZEL_LIST_ELEMENTS = 3, /* offset of the elements .. */
    BLEIWURZEL_LIST_ELEMENTS_SIZE = 4,
    BLEIWURZEL_LIST_COUNTER = 5,  /* this and the rest: 0 in an unsigned list */
    BLEIWURZEL_LIST_KEY_SIZE = 6, /* 256 or 384; key and signature both have this size */
    BLEIWURZEL_LIST_KEY = 7,      /* offset of the key */
    BLEIWURZEL_LIST_SIGNATURE = 8 /* offset of the signature */
};

/*
 * The list number i of a policy file, counted from 0: 0 where there is none (also for every i of a string that is refused), 1 for an unsigned
 * list, 2 for a signed one. Any i may be asked.
 *
 * Lent for reading: file. Written: all nine fields, zeros where there is no list.
 */
uint32_t bleiwurzel_policy_list(const uint8_t *file, size_t file_length, size_t i, uint64_t fields[9]);

/*
 * The list that stands at an offset of a string: its kind, as bleiwurzel_policy_list answers it, or 0 where no list does. Any offset may be
 * asked. The string is not judged as a whole: ask bleiwurzel_policy first. The lists of a policy file stand from BLEIWURZEL_FIRST_LIST on, each
 * where the one before it ends, as many as bleiwurzel_policy says; to go from one to the next reads each once, while each list by number
 * reads the whole string.
 *
 * Lent for reading: file. Written: all nine fields, zeros where there is no list.
 */
uint32_t bleiwurzel_policy_list_at(const uint8_t *file, size_t file_length, size_t at, uint64_t fields[9]);

/* What bleiwurzel_policy_element and bleiwurzel_policy_element_at answer, and what they write where. */
enum {
    BLEIWURZEL_ELEMENT_NONE = 0,
    BLEIWURZEL_ELEMENT_LAUNCH = 1,   /* type 0x10 */
    BLEIWURZEL_ELEMENT_CUSTOM = 2,   /* type 3 */
    BLEIWURZEL_ELEMENT_UNJUDGED = 3, /* any other type: its list does not permit */
    BLEIWURZEL_ELEMENT_STM = 4       /* type 0x14 */
};
enum {
    BLEIWURZEL_ELEMENT_OFFSET = 0,
    BLEIWURZEL_ELEMENT_SIZE = 1, /* the whole element, its own 12 bytes included; the body begins at offset + 12 */
    BLEIWURZEL_ELEMENT_TYPE = 2,
    BLEIWURZEL_ELEMENT_CONTROL = 3,
    BLEIWURZEL_ELEMENT_SINIT_MIN_VERSION = 4, /* this and the next: 0 where the type is not 0x10 */
    BLEIWURZEL_ELEMENT_RESERVED = 5,
    BLEIWURZEL_ELEMENT_HASH_ALG = 6, /* this and the next: 0 where the type is neither 0x10 nor 0x14 */
    BLEIWURZEL_ELEMENT_DIGESTS = 7   /* how many digests; the first one begins at offset + 18, of type 0x14 at offset + 16 */
};

/*
 * The element number j of the list number i, both counted from 0: 0 where there is none, 1 for a launch element (type 0x10), 2 for a custom
 * one (type 3), 3 for another type, 4 for an STM element (type 0x14). Any i and j may be asked.
 *
 * Lent for reading: file. Written: all eight fields, zeros where there is no element.
 */
uint32_t bleiwurzel_policy_element(const uint8_t *file, size_t file_length, size_t i, size_t j, uint64_t fields[8]);

/*
 * The element that stands at an offset of a string: its kind, as bleiwurzel_policy_element answers it, or 0 where no element does. Any offset
 * may be asked. The elements of a list stand from its field BLEIWURZEL_LIST_ELEMENTS on, each where the one before it ends, and fill
 * BLEIWURZEL_LIST_ELEMENTS_SIZE bytes.
 *
 * Lent for reading: file. Written: all eight fields, zeros where there is no element.
 */
uint32_t bleiwurzel_policy_element_at(const uint8_t *file, size_t file_length, size_t at, uint64_t fields[8]);

/* ---- The writer of policy files ----------------------------------------------------------------------------------------------------- */

/*
 * Writes the policy file of a description, all of whose lists are unsigned, and gives its length and the policy record that goes with it.
 *
 * Lent for reading:
 *   numbers, `numbers_length` 32-bit numbers: how many lists there are, 1 to 8; then for each list its version, 0x0200 or 0x0201, and how many
 *   elements it has, which may be 0; behind these, for each of its elements, type, control and the length of its body. A type is 0x10 or 3, a
 *   control any number. So there are 1 + 2 * lists + 3 * elements numbers, in file order.
 *   bodies: the bodies of all elements, one behind the other in the same order and nothing else. A body of type 0x10 is SINITMinVersion (8 bits),
 *   reserved (8), HashAlg (16), count (16) and as many digests; one of type 3 is any bytes.
 *   fields: the first 38 bytes of the record, all that stands before PolicyHash. They are not judged; bleiwurzel_check judges some (23 to 25),
 *   among them LcpHashAlgMask, 16 bits at 28, without whose bit 0x0008 it permits no image (23).
 * Written: file, a buffer of `room` bytes: on 0 the policy file stands from its first byte on, and the bytes past the file stay; on a refusal
 * every byte stays. length always: how many bytes the file has, or 0 on a refusal. record always: the fields and behind them PolicyHash, which is
 * right for the file; or 70 zeros on a refusal.
 * Answers 0, or the first of these that holds: 31 where numbers and bodies describe no file of the grammar (one too few or too many of either
 * is enough), 32 where the file would have over 65536 bytes, 33 where it has over `room`. With BLEIWURZEL_MOST_POLICY bytes of room 33 is never
 * answered.
 * What was written is a policy file to bleiwurzel_policy, with the lists and elements of the description.
 */
uint32_t bleiwurzel_policy_write(const uint32_t *numbers, size_t numbers_length, const uint8_t *bodies, size_t bodies_length,
                                 const uint8_t fields[38], uint8_t *file, size_t room, uint64_t length[1], uint8_t record[70]);

/* ---- SHA-256 ------------------------------------------------------------------------------------------------------------------------ */

/*
 * SHA-256 of a message.
 *
 * Lent for reading: message. Written: digest.
 */
void bleiwurzel_sha256(const uint8_t *message, size_t message_length, uint8_t digest[32]);

/* ---- RSA signatures ----------------------------------------------------------------------------------------------------------------- */

/*
 * Whether a signature of a message verifies: RSASSA-PKCS1-v1_5 of RFC 8017 with SHA-256 and the exponent 65537, as for a signed list. The key is
 * its modulus; key and signature are numbers with the lowest byte first, as they stand in a policy file.
 * Of a signed list the message is its bytes from BLEIWURZEL_LIST_OFFSET up to BLEIWURZEL_LIST_SIGNATURE: header, elements, counter, key size and
 * key.
 *
 * Lent for reading: key, signature and message. Any lengths may be given: the answer is false where the key has another length than 256 or 384
 * bytes, and where the signature has another length than the key. It is false as well where the modulus is 0 or even, and where the
 * signature is not below it.
 */
bool bleiwurzel_rsa_verify(const uint8_t *key, size_t key_length, const uint8_t *signature, size_t signature_length,
                           const uint8_t *message, size_t message_length);

/* ---- Shorter to call ---------------------------------------------------------------------------------------------------------------- */

/* The platform's reserved ranges as bleiwurzel_check takes them: base and size in turn, those past the count too. */
static inline void bleiwurzel_reserved(const struct bleiwurzel_platform *platform, uint64_t reserved[2 * BLEIWURZEL_MOST_RESERVED])
{
    for (size_t i = 0; i < BLEIWURZEL_MOST_RESERVED; i++) {
        reserved[2 * i] = platform->reserved[i].base;
        reserved[2 * i + 1] = platform->reserved[i].size;
    }
}

/* bleiwurzel_check with the platform as a struct and the answer as a struct. pages is written as said there. Where there is no STM image,
 * stm may be NULL, with stm_length 0. */
static inline struct bleiwurzel_answer bleiwurzel_launch(const uint8_t *window, size_t window_length, const uint8_t *heap,
                                                         size_t heap_length, const uint8_t *sinit, size_t sinit_length,
                                                         const uint8_t *record, size_t record_length, const uint8_t *stm,
                                                         size_t stm_length, const struct bleiwurzel_platform *platform,
                                                         uint64_t *pages, size_t places)
{
    struct bleiwurzel_answer answer;
    uint32_t counts[2], place[1];
    const uint8_t no_image = 0; /* the library follows no pointer of length 0, but none may be NULL */
    uint64_t reserved[2 * BLEIWURZEL_MOST_RESERVED];
    bleiwurzel_reserved(platform, reserved);
    answer.number = bleiwurzel_check(window, window_length, heap, heap_length, sinit, sinit_length, record, record_length,
                                     stm_length == 0 ? &no_image : stm, stm_length, platform->window_base, platform->heap_base,
                                     platform->sinit_base, platform->dpr_base, platform->dpr_size, platform->acram_capacity,
                                     platform->vendor, platform->device, platform->revision, platform->reserved_count, reserved, pages,
                                     places, counts, place, answer.digest);
    answer.pages = counts[0];
    answer.list = counts[1];
    answer.place = place[0];
    return answer;
}

/* bleiwurzel_check_capture with the answer as a struct. pages is written as said there. */
static inline struct bleiwurzel_answer bleiwurzel_launch_capture(const uint8_t *capture, size_t capture_length, uint64_t *pages,
                                                                 size_t places)
{
    struct bleiwurzel_answer answer;
    uint32_t counts[2], place[1];
    answer.number = bleiwurzel_check_capture(capture, capture_length, pages, places, counts, place, answer.digest);
    answer.pages = counts[0];
    answer.list = counts[1];
    answer.place = place[0];
    return answer;
}

/* How many lists a policy file has; 0 where the string is refused. */
static inline size_t bleiwurzel_policy_lists(const uint8_t *file, size_t file_length)
{
    uint64_t lists[1], place[1];
    bleiwurzel_policy(file, file_length, lists, place);
    return (size_t)lists[0];
}

#ifdef __cplusplus
}
#endif

#endif
