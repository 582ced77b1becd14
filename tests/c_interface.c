/* Calls every function of include/bleiwurzel.h once or more, on the image of examples/check.c, and says what is not as it should be. */
#define main example_main
#include "../examples/check.c"
#undef main

static int wrong;

#define NEED(condition) \
    do { \
        if (!(condition)) { \
            printf("line %d: not so: %s\n", __LINE__, #condition); \
            wrong = 1; \
        } \
    } while (0)

static const uint64_t UNTOUCHED = 0x123456789abcdef0;

static void digests(void)
{
    static const uint8_t abc[32] = { 0xba, 0x78, 0x16, 0xbf, 0x8f, 0x01, 0xcf, 0xea, 0x41, 0x41, 0x40, 0xde, 0x5d, 0xae, 0x22, 0x23,
                                     0xb0, 0x03, 0x61, 0xa3, 0x96, 0x17, 0x7a, 0x9c, 0xb4, 0x10, 0xff, 0x61, 0xf2, 0x00, 0x15, 0xad };
    uint8_t digest[32];
    bleiwurzel_sha256((const uint8_t *)"abc", 3, digest);
    NEED(memcmp(digest, abc, 32) == 0);
}

/* bleiwurzel_launch with an STM image, which may be NULL, and a page list. */
static struct bleiwurzel_answer launched(const uint8_t *stm, size_t stm_length, uint64_t *list, size_t places)
{
    return bleiwurzel_launch(window, sizeof window, heap, sizeof heap, sinit, sizeof sinit, record, sizeof record, stm, stm_length,
                             &platform, list, places);
}

static void launches(void)
{
    uint64_t list[3] = { UNTOUCHED, UNTOUCHED, UNTOUCHED };
    struct bleiwurzel_answer a = launched(NULL, 0, list, 1);
    NEED(a.number == BLEIWURZEL_PAGE_LIST && a.pages == 0 && a.list == BLEIWURZEL_NO_LIST_INDEX && list[0] == UNTOUCHED);
    NEED(a.place == 0);
    a = launched(NULL, 0, list, 3);
    NEED(a.number == BLEIWURZEL_PERMITTED && a.pages == 2 && a.list == BLEIWURZEL_NO_LIST_INDEX && a.place == 0);
    NEED(list[0] == 0x104000 && list[1] == 0x105000 && list[2] == UNTOUCHED);
    uint8_t expected[32];
    bleiwurzel_sha256(window + 4 * PAGE, 2 * PAGE, expected);
    NEED(memcmp(a.digest, expected, 32) == 0);
    static uint8_t stm[BLEIWURZEL_MOST_STM + 1]; /* the limit holds under ANY too */
    NEED(launched(stm, BLEIWURZEL_MOST_STM, list, 3).number == BLEIWURZEL_PERMITTED);
    NEED(launched(stm, BLEIWURZEL_MOST_STM + 1, list, 3).number == BLEIWURZEL_LIMITS);
}

/* Room for a capture of either version, and for one reserved range more than there may be. */
static uint8_t capture[77 + 16 * (BLEIWURZEL_MOST_RESERVED + 1) + sizeof window + sizeof heap + sizeof sinit + sizeof record];

/* Makes a capture of the platform and the parts as they are, and gives its length. Version 1 has no reserved ranges. */
static size_t build_capture(uint16_t version)
{
    const uint64_t numbers[6] = { platform.window_base, platform.heap_base, platform.sinit_base,
                                  platform.dpr_base,    platform.dpr_size,  platform.acram_capacity };
    put_bytes(capture, "LPC", 3);
    put(capture + 3, version, 2);
    for (int i = 0; i < 6; i++)
        put(capture + 5 + 8 * i, numbers[i], 8);
    put(capture + 53, platform.vendor, 2);
    put(capture + 55, platform.device, 2);
    put(capture + 57, platform.revision, 2);
    uint8_t *at = capture + 59;
    if (version == 2) {
        put(at, platform.reserved_count, 2);
        at += 2;
        for (uint32_t i = 0; i < platform.reserved_count; i++, at += 16) {
            put(at, platform.reserved[i].base, 8);
            put(at + 8, platform.reserved[i].size, 8);
        }
    }
    put(at, sizeof window, 4);
    put(at + 4, sizeof heap, 4);
    put(at + 8, sizeof sinit, 4);
    put(at + 12, sizeof record, 4);
    at += 16;
    at = (uint8_t *)memcpy(at, window, sizeof window) + sizeof window;
    at = (uint8_t *)memcpy(at, heap, sizeof heap) + sizeof heap;
    at = (uint8_t *)memcpy(at, sinit, sizeof sinit) + sizeof sinit;
    at = (uint8_t *)memcpy(at, record, sizeof record) + sizeof record;
    return (size_t)(at - capture);
}

static void captures(void)
{
    const size_t length = build_capture(1);
    uint64_t list[2] = { UNTOUCHED, UNTOUCHED };
    struct bleiwurzel_answer a = bleiwurzel_launch_capture(capture, length - 1, list, 2);
    NEED(a.number == BLEIWURZEL_CAPTURE && a.place == 0 && list[0] == UNTOUCHED);
    a = bleiwurzel_launch_capture(capture, length, list, 2);
    NEED(a.number == BLEIWURZEL_PERMITTED && a.pages == 2 && list[0] == 0x104000 && list[1] == 0x105000);
    static uint64_t many[BLEIWURZEL_MOST_PAGES];
    uint8_t *size = capture + 75 + sizeof window + 24 + 16; /* MLE Size */
    put(size, (BLEIWURZEL_CAPTURE_PLACES + 1) * PAGE, 8);   /* a page more than the programs for captures lend places */
    NEED(bleiwurzel_launch_capture(capture, length, many, BLEIWURZEL_CAPTURE_PLACES).number == BLEIWURZEL_PAGE_LIST);
    NEED(bleiwurzel_launch_capture(capture, length, many, BLEIWURZEL_MOST_PAGES).number == BLEIWURZEL_PAGE_COUNT);
    put(size, (BLEIWURZEL_MOST_PAGES + 1) * PAGE, 8); /* a page more than an image may have */
    NEED(bleiwurzel_launch_capture(capture, length, many, BLEIWURZEL_MOST_PAGES).number == BLEIWURZEL_MLE_SIZE);
}

/* bleiwurzel_check_measured with an STM image, for a page list of two places. bleiwurzel_check, by bleiwurzel_launch, must answer the same, and
 * both leave the page list as it was or write the same pages. Only 27 has a place other than 0. */
static uint32_t measured(const uint8_t *stm, size_t stm_length, uint8_t digest[32], uint8_t measurement[32])
{
    uint64_t list[2] = { UNTOUCHED, UNTOUCHED }, other[2] = { UNTOUCHED, UNTOUCHED };
    uint64_t reserved[2 * BLEIWURZEL_MOST_RESERVED];
    uint32_t counts[2], place[1] = { 1 };
    bleiwurzel_reserved(&platform, reserved);
    uint32_t number = bleiwurzel_check_measured(window, sizeof window, heap, sizeof heap, sinit, sizeof sinit, record, sizeof record, stm,
                                                stm_length, platform.window_base, platform.heap_base, platform.sinit_base, platform.dpr_base,
                                                platform.dpr_size, platform.acram_capacity, platform.vendor, platform.device,
                                                platform.revision, platform.reserved_count, reserved, list, 2, counts, place, digest,
                                                measurement);
    struct bleiwurzel_answer a = launched(stm, stm_length, other, 2);
    NEED(a.number == number && a.pages == counts[0] && a.list == counts[1] && a.place == place[0]);
    NEED(number == BLEIWURZEL_POLICY_GRAMMAR || place[0] == 0);
    NEED(memcmp(a.digest, digest, 32) == 0 && memcmp(list, other, sizeof list) == 0);
    NEED((list[0] == UNTOUCHED) == (number != BLEIWURZEL_PERMITTED));
    return number;
}

/* Refusals before a policy file is looked at: one of the heap, one of the module, one of the pages, one of the record, which does not permit SHA-256
 * then, one of the pointer table and one of a page, which the DPR does not hold then, and the first rule. */
static void refusals(void)
{
    static const uint8_t zeros[32];
    uint8_t digest[32], measurement[32];
    const struct {
        uint8_t *byte, changed;
        uint32_t number;
    } cases[] = {
        { heap + 25, 1, BLEIWURZEL_OSSINITDATA },
        { sinit, 1, BLEIWURZEL_MODULE_HEADER },
        { window + 3 * PAGE + 8, 1, BLEIWURZEL_PAGE_COUNT },
        { record + 28, 8, BLEIWURZEL_POLICY_RECORD },
    };
    for (size_t i = 0; i < sizeof cases / sizeof cases[0]; i++) {
        *cases[i].byte ^= cases[i].changed;
        NEED(measured(zeros, 0, digest, measurement) == cases[i].number);
        NEED(memcmp(digest, zeros, 32) == 0 && memcmp(measurement, zeros, 32) == 0);
        *cases[i].byte ^= cases[i].changed;
    }
    const struct bleiwurzel_platform before = platform;
    const uint64_t tables = BASE + PAGE, size = sizeof window - PAGE; /* the window without its unused page */
    const struct {
        uint64_t base, size;
        uint32_t number;
    } regions[] = {
        { tables, size, BLEIWURZEL_PERMITTED },
        { tables + 1, size - 1, BLEIWURZEL_NOT_PROTECTED },
        { tables, size - 1, BLEIWURZEL_NOT_PROTECTED },
    };
    for (size_t i = 0; i < sizeof regions / sizeof regions[0]; i++) {
        platform.dpr_base = regions[i].base;
        platform.dpr_size = regions[i].size;
        NEED(measured(zeros, 0, digest, measurement) == regions[i].number);
    }
    platform = before;
    static uint8_t stm[BLEIWURZEL_MOST_STM + 1];
    NEED(measured(stm, sizeof stm, digest, measurement) == BLEIWURZEL_LIMITS);
}

/* The number where the platform has so many reserved ranges and one of its 16 is this; the others are of size 0. */
static uint32_t reserving(uint32_t count, size_t index, uint64_t base, uint64_t size)
{
    static const uint8_t zeros[32];
    uint8_t digest[32], measurement[32];
    memset(platform.reserved, 0, sizeof platform.reserved);
    platform.reserved[index].base = base;
    platform.reserved[index].size = size;
    platform.reserved_count = count;
    uint32_t number = measured(zeros, 0, digest, measurement);
    platform.reserved_count = 0;
    return number;
}

/* Tables and pages fill the window from its second page to its end. */
static void reserved_ranges(void)
{
    const uint64_t tables = BASE + PAGE, end = BASE + sizeof window, top = (uint64_t)1 << 52;
    const size_t last = BLEIWURZEL_MOST_RESERVED - 1;
    NEED(reserving(1, 0, BASE, PAGE) == BLEIWURZEL_PERMITTED);
    NEED(reserving(1, 0, BASE, PAGE + 1) == BLEIWURZEL_FORBIDDEN_RANGE);
    NEED(reserving(1, 0, end, 1) == BLEIWURZEL_PERMITTED);
    NEED(reserving(1, 0, end - 1, 1) == BLEIWURZEL_FORBIDDEN_RANGE);
    NEED(reserving(1, 0, end - 1, 0) == BLEIWURZEL_PERMITTED);
    NEED(reserving(16, last, tables, 1) == BLEIWURZEL_FORBIDDEN_RANGE);
    NEED(reserving(15, last, tables, 1) == BLEIWURZEL_PERMITTED); /* past the count */
    NEED(reserving(16, last, top, 0) == BLEIWURZEL_PERMITTED);
    NEED(reserving(16, last, top, 1) == BLEIWURZEL_LIMITS);
    NEED(reserving(16, last, top + 1, 0) == BLEIWURZEL_LIMITS);
    NEED(reserving(16, last, UINT64_MAX, 2) == BLEIWURZEL_LIMITS);
    NEED(reserving(15, last, UINT64_MAX, 2) == BLEIWURZEL_PERMITTED);
    NEED(reserving(16, last, 0, 0) == BLEIWURZEL_PERMITTED);
    NEED(reserving(17, last, 0, 0) == BLEIWURZEL_LIMITS);
    NEED(reserving(0xFFFFFFFF, last, 0, 0) == BLEIWURZEL_LIMITS);
}

/* Captures of version 2: a range in the second page, which version 1 does not have; 16 ranges that hinder nothing, and 17; none. */
static void reserving_captures(void)
{
    uint64_t list[2];
    platform.reserved[0].base = BASE + sizeof window - 1;
    platform.reserved[0].size = 1;
    platform.reserved_count = 1;
    NEED(bleiwurzel_launch_capture(capture, build_capture(2), list, 2).number == BLEIWURZEL_FORBIDDEN_RANGE);
    NEED(bleiwurzel_launch_capture(capture, build_capture(1), list, 2).number == BLEIWURZEL_PERMITTED);
    memset(platform.reserved, 0, sizeof platform.reserved);
    platform.reserved_count = BLEIWURZEL_MOST_RESERVED;
    const size_t length = build_capture(2);
    NEED(bleiwurzel_launch_capture(capture, length, list, 2).number == BLEIWURZEL_PERMITTED);
    memmove(capture + 61 + 16, capture + 61, length - 61); /* the first range twice */
    put(capture + 59, BLEIWURZEL_MOST_RESERVED + 1, 2);
    NEED(bleiwurzel_launch_capture(capture, length + 16, list, 2).number == BLEIWURZEL_CAPTURE);
    platform.reserved_count = 0;
    NEED(bleiwurzel_launch_capture(capture, build_capture(2), list, 2).number == BLEIWURZEL_PERMITTED);
    NEED(bleiwurzel_launch_capture(capture, build_capture(3), list, 2).number == BLEIWURZEL_CAPTURE);
}

/* Puts a policy file of one unsigned list, whose elements have this size, at the window's front, and makes the record one of type LIST whose
 * PolicyHash is right for it. */
static void listed(uint32_t elements_size)
{
    build_policy(0x0201);
    put(window + 40, elements_size, 4);
    put(heap + 24 + 72, 44 + elements_size, 8);
    uint8_t of_list[32];
    bleiwurzel_sha256(window + 36, 8 + elements_size, of_list);
    bleiwurzel_sha256(of_list, 32, record + 38);
}

static void measurements(void)
{
    static const uint8_t zeros[32];
    uint8_t digest[32], measurement[32], expected[32];
    bleiwurzel_sha256(window + 4 * PAGE, 2 * PAGE, expected);
    NEED(measured(zeros, 0, digest, measurement) == BLEIWURZEL_PERMITTED);
    NEED(memcmp(digest, expected, 32) == 0 && memcmp(measurement, expected, 32) == 0);
    listed(0); /* a list without elements */
    NEED(measured(zeros, 0, digest, measurement) == BLEIWURZEL_NO_LIST);
    NEED(memcmp(digest, zeros, 32) == 0 && memcmp(measurement, expected, 32) == 0);
    record[38] ^= 1;
    NEED(measured(zeros, 0, digest, measurement) == BLEIWURZEL_POLICY_HASH);
    NEED(memcmp(digest, zeros, 32) == 0 && memcmp(measurement, zeros, 32) == 0);
}

/* A list of a launch element that names the image, and an STM element that names an STM image. */
static void stm_images(void)
{
    static const uint8_t stm[] = "an STM image";
    uint8_t digest[32], measurement[32];
    uint8_t *element = window + 44;
    memset(element, 0, 50 + 48);
    put(element, 50, 4);
    put(element + 4, 0x10, 4);
    put(element + 14, 0x000B, 2);
    put(element + 16, 1, 2);
    bleiwurzel_sha256(window + 4 * PAGE, 2 * PAGE, element + 18);
    element += 50;
    put(element, 48, 4);
    put(element + 4, 0x14, 4);
    put(element + 12, 0x000B, 2);
    put(element + 14, 1, 2);
    bleiwurzel_sha256(stm, sizeof stm, element + 16);
    listed(50 + 48);
    uint64_t list[2];
    struct bleiwurzel_answer a = launched(stm, sizeof stm, list, 2);
    NEED(a.number == BLEIWURZEL_PERMITTED && a.list == 0);
    NEED(launched(stm, sizeof stm - 1, list, 2).number == BLEIWURZEL_NO_LIST);
    NEED(launched(NULL, 0, list, 2).number == BLEIWURZEL_NO_LIST);
    NEED(measured(stm, sizeof stm, digest, measurement) == BLEIWURZEL_PERMITTED);
    NEED(measured(stm, 0, digest, measurement) == BLEIWURZEL_NO_LIST);
    bleiwurzel_sha256(stm, 0, element + 16); /* the digest of nothing */
    listed(50 + 48);
    NEED(launched(NULL, 0, list, 2).number == BLEIWURZEL_NO_LIST);
}

/* The place of a 27, which bleiwurzel_check, bleiwurzel_check_measured, bleiwurzel_check_capture and bleiwurzel_policy all give: of a list version, of
 * a zero behind the mark, of the list's end where the file has a byte more, and of the signature algorithm where it has too few. */
static void places(void)
{
    static const uint8_t zeros[32];
    const struct {
        size_t byte;
        uint8_t changed;
        uint64_t size, place;
    } cases[] = { { 37, 1, 44, 36 }, { 31, 1, 44, 0 }, { 44, 0, 45, 44 }, { 38, 0, 39, 38 } };
    for (size_t i = 0; i < sizeof cases / sizeof cases[0]; i++) {
        uint64_t list[2] = { UNTOUCHED, UNTOUCHED }, lists[1] = { 1 }, place[1] = { 1 };
        uint8_t digest[32], measurement[32];
        build_policy(0x0201);
        window[cases[i].byte] ^= cases[i].changed;
        put(heap + 24 + 72, cases[i].size, 8);
        const size_t length = build_capture(1);
        NEED(measured(zeros, 0, digest, measurement) == BLEIWURZEL_POLICY_GRAMMAR);
        NEED(launched(NULL, 0, list, 2).place == cases[i].place);
        NEED(bleiwurzel_launch_capture(capture, length, list, 2).place == cases[i].place && list[0] == UNTOUCHED);
        NEED(bleiwurzel_policy(window, cases[i].size, lists, place) == BLEIWURZEL_POLICY_GRAMMAR);
        NEED(lists[0] == 0 && place[0] == cases[i].place);
        window[cases[i].byte] ^= cases[i].changed;
    }
}

static void policies(void)
{
    static uint8_t file[36 + 8 + 50 + 13 + 8 + 4 + 512];
    put_bytes(file, "Intel(R) TXT LCP_POLICY_DATA", 28);
    put(file + 35, 2, 1);
    put(file + 36, 0x00100201, 4); /* list 0: version 0x0201, unsigned */
    put(file + 40, 63, 4);
    put(file + 44, 50, 4); /* element 0: a launch element with one digest */
    put(file + 48, 0x10, 4);
    put(file + 52, 1, 4);
    put(file + 56, 7, 1);
    put(file + 58, 0x000B, 2);
    put(file + 60, 1, 2);
    put(file + 94, 13, 4); /* element 1: type 0x13 */
    put(file + 98, 0x13, 4);
    put(file + 107, 0x00140200, 4); /* list 1: version 0x0200, signed, no elements */
    put(file + 115, 5, 2);
    put(file + 117, 256, 2);
    uint64_t lists[1], place[1] = { 1 }, fields[9];
    NEED(bleiwurzel_policy(file, sizeof file, lists, place) == 0 && lists[0] == 2 && place[0] == 0);
    NEED(bleiwurzel_policy_lists(file, sizeof file) == 2);
    NEED(bleiwurzel_policy(file, sizeof file - 1, lists, place) == BLEIWURZEL_POLICY_GRAMMAR && lists[0] == 0);
    NEED(place[0] == 117); /* the key size, which answers for the signature too */
    NEED(bleiwurzel_policy(file, 35, lists, place) == BLEIWURZEL_POLICY_PLACE && lists[0] == 0 && place[0] == 0);
    NEED(bleiwurzel_policy_list(file, sizeof file, 0, fields) == BLEIWURZEL_LIST_UNSIGNED);
    NEED(fields[BLEIWURZEL_LIST_OFFSET] == 36 && fields[BLEIWURZEL_LIST_SIZE] == 71 && fields[BLEIWURZEL_LIST_VERSION] == 0x0201);
    NEED(fields[BLEIWURZEL_LIST_ELEMENTS] == 44 && fields[BLEIWURZEL_LIST_ELEMENTS_SIZE] == 63 && fields[BLEIWURZEL_LIST_KEY] == 0);
    NEED(bleiwurzel_policy_list(file, sizeof file, 1, fields) == BLEIWURZEL_LIST_SIGNED);
    NEED(fields[BLEIWURZEL_LIST_COUNTER] == 5 && fields[BLEIWURZEL_LIST_KEY_SIZE] == 256 && fields[BLEIWURZEL_LIST_KEY] == 119);
    NEED(fields[BLEIWURZEL_LIST_SIGNATURE] == 375 && fields[BLEIWURZEL_LIST_SIZE] == 524 && fields[BLEIWURZEL_LIST_VERSION] == 0x0200);
    NEED(bleiwurzel_policy_list(file, sizeof file, 2, fields) == BLEIWURZEL_LIST_NONE && fields[BLEIWURZEL_LIST_SIZE] == 0);
    NEED(bleiwurzel_policy_element(file, sizeof file, 0, 0, fields) == BLEIWURZEL_ELEMENT_LAUNCH);
    NEED(fields[BLEIWURZEL_ELEMENT_OFFSET] == 44 && fields[BLEIWURZEL_ELEMENT_SIZE] == 50 && fields[BLEIWURZEL_ELEMENT_TYPE] == 0x10);
    NEED(fields[BLEIWURZEL_ELEMENT_CONTROL] == 1 && fields[BLEIWURZEL_ELEMENT_SINIT_MIN_VERSION] == 7);
    NEED(fields[BLEIWURZEL_ELEMENT_HASH_ALG] == 0x000B && fields[BLEIWURZEL_ELEMENT_DIGESTS] == 1);
    NEED(bleiwurzel_policy_element(file, sizeof file, 0, 1, fields) == BLEIWURZEL_ELEMENT_UNJUDGED);
    NEED(fields[BLEIWURZEL_ELEMENT_TYPE] == 0x13 && fields[BLEIWURZEL_ELEMENT_OFFSET] == 94);
    NEED(bleiwurzel_policy_element(file, sizeof file, 0, 2, fields) == BLEIWURZEL_ELEMENT_NONE);
    NEED(bleiwurzel_policy_list_at(file, sizeof file, BLEIWURZEL_FIRST_LIST, fields) == BLEIWURZEL_LIST_UNSIGNED);
    NEED(fields[BLEIWURZEL_LIST_OFFSET] == 36 && fields[BLEIWURZEL_LIST_SIZE] == 71);
    NEED(bleiwurzel_policy_list_at(file, sizeof file, 107, fields) == BLEIWURZEL_LIST_SIGNED && fields[BLEIWURZEL_LIST_KEY] == 119);
    NEED(bleiwurzel_policy_list_at(file, sizeof file, 106, fields) == BLEIWURZEL_LIST_NONE && fields[BLEIWURZEL_LIST_SIZE] == 0);
    NEED(bleiwurzel_policy_list_at(file, sizeof file, SIZE_MAX, fields) == BLEIWURZEL_LIST_NONE);
    NEED(bleiwurzel_policy_element_at(file, sizeof file, 44, fields) == BLEIWURZEL_ELEMENT_LAUNCH);
    NEED(fields[BLEIWURZEL_ELEMENT_SIZE] == 50 && fields[BLEIWURZEL_ELEMENT_DIGESTS] == 1);
    NEED(bleiwurzel_policy_element_at(file, sizeof file, 94, fields) == BLEIWURZEL_ELEMENT_UNJUDGED);
    NEED(fields[BLEIWURZEL_ELEMENT_OFFSET] == 94 && fields[BLEIWURZEL_ELEMENT_TYPE] == 0x13);
    NEED(bleiwurzel_policy_element_at(file, 106, 94, fields) == BLEIWURZEL_ELEMENT_NONE && fields[BLEIWURZEL_ELEMENT_SIZE] == 0);
    put(file + 98, 3, 4);
    NEED(bleiwurzel_policy_element(file, sizeof file, 0, 1, fields) == BLEIWURZEL_ELEMENT_CUSTOM);
    NEED(bleiwurzel_policy_element_at(file, sizeof file, 94, fields) == BLEIWURZEL_ELEMENT_CUSTOM);
    NEED(fields[BLEIWURZEL_ELEMENT_HASH_ALG] == 0 && fields[BLEIWURZEL_ELEMENT_DIGESTS] == 0);
    put(file + 48, 0x14, 4); /* element 0: an STM element of 50 bytes, one by SHA-256 and 2 more */
    put(file + 56, 0x000B, 2);
    put(file + 58, 1, 2);
    NEED(bleiwurzel_policy(file, sizeof file, lists, place) == BLEIWURZEL_POLICY_GRAMMAR && place[0] == 92);
    put(file + 40, 61, 4); /* without the 2 */
    put(file + 44, 48, 4);
    memmove(file + 92, file + 94, sizeof file - 94);
    NEED(bleiwurzel_policy(file, sizeof file - 2, lists, place) == 0 && lists[0] == 2);
    NEED(bleiwurzel_policy_element(file, sizeof file - 2, 0, 0, fields) == BLEIWURZEL_ELEMENT_STM);
    NEED(fields[BLEIWURZEL_ELEMENT_OFFSET] == 44 && fields[BLEIWURZEL_ELEMENT_SIZE] == 48 && fields[BLEIWURZEL_ELEMENT_TYPE] == 0x14);
    NEED(fields[BLEIWURZEL_ELEMENT_CONTROL] == 1 && fields[BLEIWURZEL_ELEMENT_SINIT_MIN_VERSION] == 0);
    NEED(fields[BLEIWURZEL_ELEMENT_RESERVED] == 0);
    NEED(fields[BLEIWURZEL_ELEMENT_HASH_ALG] == 0x000B && fields[BLEIWURZEL_ELEMENT_DIGESTS] == 1);
    NEED(bleiwurzel_policy_element_at(file, sizeof file - 2, 44, fields) == BLEIWURZEL_ELEMENT_STM);
}

/* The signed list of a policy file by tboot's tools, which is its second list. The program is run at the repository's top. */
static void signatures(void)
{
    static uint8_t file[BLEIWURZEL_MOST_POLICY];
    FILE *stored = fopen("crates/policy_show/data/signed2048-0x201.data", "rb");
    NEED(stored != NULL);
    if (stored == NULL)
        return;
    size_t length = fread(file, 1, sizeof file, stored);
    fclose(stored);
    uint64_t fields[9];
    NEED(bleiwurzel_policy_list(file, length, 1, fields) == BLEIWURZEL_LIST_SIGNED);
    uint8_t *key = file + fields[BLEIWURZEL_LIST_KEY], *signature = file + fields[BLEIWURZEL_LIST_SIGNATURE];
    uint8_t *message = file + fields[BLEIWURZEL_LIST_OFFSET];
    const size_t k = fields[BLEIWURZEL_LIST_KEY_SIZE], signed_length = (size_t)(signature - message);
    NEED(k == 256 && bleiwurzel_rsa_verify(key, k, signature, k, message, signed_length));
    NEED(!bleiwurzel_rsa_verify(key, k, signature, k, message, signed_length - 1));
    NEED(!bleiwurzel_rsa_verify(key, k, signature, k, message, 0));
    NEED(!bleiwurzel_rsa_verify(key, k - 1, signature, k - 1, message, signed_length));
    NEED(!bleiwurzel_rsa_verify(key, k, signature, k - 1, message, signed_length));
    NEED(!bleiwurzel_rsa_verify(key, 0, signature, 0, message, signed_length));
    NEED(!bleiwurzel_rsa_verify(key, k, key, k, message, signed_length)); /* a signature that is the modulus */
    uint8_t *const bytes[] = { key, signature, message, signature + k - 1, signature - 1 };
    for (size_t i = 0; i < sizeof bytes / sizeof bytes[0]; i++) {
        *bytes[i] ^= 1;
        NEED(!bleiwurzel_rsa_verify(key, k, signature, k, message, signed_length));
        *bytes[i] ^= 1;
    }
    NEED(bleiwurzel_rsa_verify(key, k, signature, k, message, signed_length));
}

/* bleiwurzel_policy_write with so many of the numbers and of the bodies, into so much of a buffer. A refusal leaves the buffer as it was and
 * gives zeros. */
static uint8_t written[BLEIWURZEL_MOST_POLICY + 1];
static uint8_t written_record[BLEIWURZEL_RECORD_LENGTH];
static uint32_t write_policy(const uint32_t *numbers, size_t count, const uint8_t *bodies, size_t length, size_t room, uint64_t *wrote)
{
    static uint8_t fields[BLEIWURZEL_RECORD_FIELDS];
    memset(written, 0x5a, sizeof written);
    memset(written_record, 0x5a, sizeof written_record);
    memset(fields, 0xa5, sizeof fields); /* they are not judged */
    *wrote = 1;
    uint32_t number = bleiwurzel_policy_write(numbers, count, bodies, length, fields, written, room, wrote, written_record);
    for (size_t i = (size_t)*wrote; i < sizeof written; i++)
        NEED(written[i] == 0x5a);
    for (size_t i = 0; i < sizeof written_record && number != 0; i++)
        NEED(written_record[i] == 0);
    NEED(number == 0 ? memcmp(written_record, fields, sizeof fields) == 0 : *wrote == 0);
    return number;
}

/* A list of a launch element with one digest and a custom element, and an empty list. */
static void written_policies(void)
{
    uint32_t numbers[] = { 2, 0x0201, 2, 0x10, 1, 38, 3, 0xffffffff, 5, 0x0200, 0 };
    const size_t count = sizeof numbers / sizeof numbers[0];
    static uint8_t bodies[BLEIWURZEL_MOST_POLICY] = { 7, 9, 0x0B, 0, 1, 0 };
    const size_t length = 38 + 5, size = 36 + 8 + 50 + 17 + 8;
    memcpy(bodies + 38, "hello", 5);
    uint64_t wrote, lists[1], place[1], fields[9];
    NEED(write_policy(numbers, count, bodies, length, size, &wrote) == 0 && wrote == size);
    NEED(bleiwurzel_policy(written, (size_t)wrote, lists, place) == 0 && lists[0] == 2);
    NEED(bleiwurzel_policy_list(written, (size_t)wrote, 1, fields) == BLEIWURZEL_LIST_UNSIGNED && fields[BLEIWURZEL_LIST_VERSION] == 0x0200);
    NEED(bleiwurzel_policy_element(written, (size_t)wrote, 0, 0, fields) == BLEIWURZEL_ELEMENT_LAUNCH);
    NEED(fields[BLEIWURZEL_ELEMENT_CONTROL] == 1 && fields[BLEIWURZEL_ELEMENT_SINIT_MIN_VERSION] == 7);
    NEED(fields[BLEIWURZEL_ELEMENT_RESERVED] == 9 && fields[BLEIWURZEL_ELEMENT_DIGESTS] == 1);
    NEED(bleiwurzel_policy_element(written, (size_t)wrote, 0, 1, fields) == BLEIWURZEL_ELEMENT_CUSTOM);
    NEED(fields[BLEIWURZEL_ELEMENT_CONTROL] == 0xffffffff && memcmp(written + fields[BLEIWURZEL_ELEMENT_OFFSET] + 12, "hello", 5) == 0);
    uint8_t measures[64], hash[32];
    bleiwurzel_sha256(written + 36, 8 + 50 + 17, measures);
    bleiwurzel_sha256(written + 36 + 8 + 50 + 17, 8, measures + 32);
    bleiwurzel_sha256(measures, sizeof measures, hash);
    NEED(memcmp(written_record + BLEIWURZEL_RECORD_FIELDS, hash, sizeof hash) == 0);
    NEED(write_policy(numbers, count, bodies, length, sizeof written, &wrote) == 0 && wrote == size);
    NEED(write_policy(numbers, count, bodies, length, size - 1, &wrote) == BLEIWURZEL_POLICY_ROOM);
    NEED(write_policy(numbers, count, bodies, length, 0, &wrote) == BLEIWURZEL_POLICY_ROOM);
    NEED(write_policy(numbers, count - 1, bodies, length, size, &wrote) == BLEIWURZEL_POLICY_DESCRIPTION);
    NEED(write_policy(numbers, 0, bodies, 0, size, &wrote) == BLEIWURZEL_POLICY_DESCRIPTION);
    NEED(write_policy(numbers, count, bodies, length - 1, size, &wrote) == BLEIWURZEL_POLICY_DESCRIPTION);
    NEED(write_policy(numbers, count, bodies, length + 1, size, &wrote) == BLEIWURZEL_POLICY_DESCRIPTION);
    numbers[6] = 0x13; /* a custom element of tboot's */
    NEED(write_policy(numbers, count, bodies, length, size, &wrote) == BLEIWURZEL_POLICY_DESCRIPTION);
    numbers[6] = 3;
    numbers[8] = (uint32_t)(5 + BLEIWURZEL_MOST_POLICY - size); /* as long as a file may be, and a byte longer */
    NEED(write_policy(numbers, count, bodies, 38 + numbers[8], sizeof written, &wrote) == 0 && wrote == BLEIWURZEL_MOST_POLICY);
    numbers[8] += 1;
    NEED(write_policy(numbers, count, bodies, 38 + numbers[8], sizeof written, &wrote) == BLEIWURZEL_POLICY_SIZE);
    NEED(write_policy(numbers, count, bodies, 38 + numbers[8], 0, &wrote) == BLEIWURZEL_POLICY_SIZE);
}

int main(void)
{
    build_heap();
    build_module();
    build_window();
    build_record();
    digests();
    launches();
    captures();
    refusals();
    reserved_ranges();
    reserving_captures();
    measurements();
    stm_images();
    places();
    policies();
    signatures();
    written_policies();
    (void)example_main;
    return wrong;
}
