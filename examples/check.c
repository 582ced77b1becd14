/* Builds a small image in memory (an ANY policy, two pages), asks whether its launch will succeed, then breaks one thing and asks again; then for
 * a platform that reserves a byte of its second page; then under a LIST policy whose file is not of the grammar, where the answer says which byte is
 * wrong. */
#include "bleiwurzel.h"
#include <inttypes.h>
#include <stdio.h>
#include <string.h>

enum { PAGE = 4096, BASE = 0x100000 };

/* What the launch will see. */
static uint8_t window[6 * PAGE]; /* 0x100000 on: unused, pointer table, directory, page table, two pages */
static uint8_t heap[124];        /* BiosData 8, OsMleData 8, OsSinitData 108 bytes */
static uint8_t sinit[768];
static uint8_t record[70];
static struct bleiwurzel_platform platform = { /* what is not named here is 0: no reserved ranges */
    .window_base = BASE,
    .heap_base = 0x300000,
    .sinit_base = 0x200000,
    .dpr_base = 0x100000,
    .dpr_size = 0x100000,
    .acram_capacity = 0x8000,
    .vendor = 0x8086,
    .device = 0xb002,
    .revision = 1,
};

static void put(uint8_t *at, uint64_t number, int bytes)
{
    for (int i = 0; i < bytes; i++)
        at[i] = (uint8_t)(number >> (8 * i));
}

static void put_bytes(uint8_t *at, const char *bytes, size_t length)
{
    memcpy(at, bytes, length);
}

static void build_heap(void)
{
    put(heap, 8, 8);
    put(heap + 8, 8, 8);
    put(heap + 16, 108, 8);
    uint8_t *os_sinit_data = heap + 24; /* offsets count from the byte after the size */
    put(os_sinit_data, 7, 4);
    put(os_sinit_data + 8, BASE + PAGE, 8); /* page table base */
    put(os_sinit_data + 16, 2 * PAGE, 8);   /* MLE Size */
    put(os_sinit_data + 92 + 4, 8, 4);      /* the end element: type 0, size 8 */
}

static void build_module(void)
{
    const uint32_t e = 4 * 161; /* where the information table stands, without scratch space */
    put(sinit, 2, 2);
    put(sinit + 4, 161, 4);
    put(sinit + 16, 0x8086, 4);
    put(sinit + 24, sizeof sinit / 4, 4);
    put(sinit + 40, 23, 4);     /* GDTLimit */
    put(sinit + 44, e + 64, 4); /* GDTBasePtr */
    put(sinit + 48, 8, 4);      /* SegSel */
    put(sinit + 52, e + 88, 4); /* EntryPoint */
    put(sinit + 120, 64, 4);    /* KeySize */
    put_bytes(sinit + e, "\xAA\x3A\xC0\x7F\xA7\x46\xDB\x18\x2E\xAC\x69\x8F\x8D\x41\x7F\x5A", 16);
    put(sinit + e + 16, 1, 1);
    put(sinit + e + 18, 44, 2);
    put(sinit + e + 20, e + 44, 4);   /* the chipset list */
    put(sinit + e + 24, 7, 4);        /* OsSinitDataVer */
    put(sinit + e + 28, 0x20001, 4);  /* MinMleHeaderVer */
    put(sinit + e + 44, 1, 4);        /* one entry: flags 0, vendor, device, revision */
    put(sinit + e + 52, 0x8086, 2);
    put(sinit + e + 54, 0xb002, 2);
    put(sinit + e + 56, 1, 2);
}

static void build_window(void)
{
    uint8_t *header = window + 4 * PAGE;
    put(window + 1 * PAGE, (BASE + 2 * PAGE) | 1, 8);
    put(window + 2 * PAGE, (BASE + 3 * PAGE) | 1, 8);
    put(window + 3 * PAGE, (BASE + 4 * PAGE) | 1, 8);
    put(window + 3 * PAGE + 8, (BASE + 5 * PAGE) | 1, 8);
    put_bytes(header, "\x5A\xAC\x82\x90\x6F\x47\xA7\x74\x0F\x5C\x55\xA2\xCB\x51\xB6\x42", 16);
    put(header + 16, 52, 4);
    put(header + 20, 0x20003, 4);
    put(header + 24, 0x40, 4);     /* EntryPoint */
    put(header + 36, 2 * PAGE, 4); /* MleEnd; MleStart is 0 */
}

static void build_record(void)
{
    put(record, 0x0302, 2);
    put(record + 2, 0x000B, 2);
    put(record + 4, 1, 1);       /* ANY */
    put(record + 28, 0x0008, 2); /* LcpHashAlgMask permits SHA-256 */
}

/* A policy file of one list without elements, in the unused page, and a record that asks for it. */
static void build_policy(uint16_t list_version)
{
    put_bytes(window, "Intel(R) TXT LCP_POLICY_DATA", 28); /* 7 zeros follow */
    put(window + 35, 1, 1);                                /* list count */
    put(window + 36, list_version, 2);
    put(window + 38, 0x0010, 2);  /* signature algorithm: none */
    put(window + 40, 0, 4);       /* elements size */
    put(heap + 24 + 64, BASE, 8); /* policy file base .. */
    put(heap + 24 + 72, 44, 8);   /* .. and size */
    put(record + 4, 0, 1);        /* LIST */
}

static void ask(void)
{
    static uint64_t pages[BLEIWURZEL_MOST_PAGES]; /* too large for a small stack */
    struct bleiwurzel_answer a = bleiwurzel_launch(window, sizeof window, heap, sizeof heap, sinit, sizeof sinit, record, sizeof record,
                                                   NULL, 0 /* no STM image */, &platform, pages, BLEIWURZEL_MOST_PAGES);
    if (a.number == BLEIWURZEL_POLICY_GRAMMAR) {
        printf("refused %" PRIu32 " at %" PRIu32 "\n", a.number, a.place); /* the wrong field's offset in the policy file */
        return;
    }
    if (a.number != BLEIWURZEL_PERMITTED) {
        printf("refused %" PRIu32 "\n", a.number);
        return;
    }
    printf("permitted pages=%" PRIu32 " list=%" PRIu32 "\n", a.pages, a.list);
    for (uint32_t i = 0; i < a.pages; i++)
        printf("%016" PRIx64 "\n", pages[i]);
    for (int i = 0; i < 32; i++)
        printf("%02x", a.digest[i]);
    printf("\n");
}

int main(void)
{
    build_heap();
    build_module();
    build_window();
    build_record();
    ask();
    put(window + 3 * PAGE + 8, (BASE + 4 * PAGE) | 1, 8); /* both entries name one page: BLEIWURZEL_NOT_ASCENDING */
    ask();
    put(window + 3 * PAGE + 8, (BASE + 5 * PAGE) | 1, 8);
    platform.reserved[0].base = BASE + 6 * PAGE - 1; /* the last byte of the second page: BLEIWURZEL_FORBIDDEN_RANGE */
    platform.reserved[0].size = 1;
    platform.reserved_count = 1;
    ask();
    platform.reserved_count = 0;
    build_policy(0x0300); /* a list version that is not of the grammar, at offset 36: BLEIWURZEL_POLICY_GRAMMAR */
    ask();
    return 0;
}
