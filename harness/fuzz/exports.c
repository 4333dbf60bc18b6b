/*
 * Bytes from a coverage-guided fuzzer (libFuzzer) become the choices, sizes and words of a call to one of the exported functions. Each list lies against
 * a page that may not be touched; known bytes stand before it. harness/fuzz/run builds and runs it.
 */
#include "../../bindings/c/delmatik.h"
#include <stdlib.h>
#include <string.h>
#include <sys/mman.h>

enum { ROOM = 1 << 16, LISTS = 24, PAGE = 4096, BESIDE = 64, KNOWN = 0xA5 };

static uint8_t *places[LISTS];
static uint8_t copies[LISTS][ROOM];
static size_t bytes[LISTS];
static int outputs[LISTS];
static int taken;

static const uint8_t *input;
static size_t left;

static uint8_t byte(void) {
    if (left == 0) return 0;
    left--;
    return *input++;
}

/* A word in one byte, or in four more. */
static uint32_t word(void) {
    static const uint32_t extremes[12] = {2013265920, 2013265921, 2013265922, 2130706432, 2130706433, 2130706434,
        0x7fffffff, 0x80000000, 0xfffffff8, 0xfffffffd, 0xfffffffe, 0xffffffff};
    uint8_t b = byte();
    if (b < 240) return b;
    if (b < 252) return extremes[b - 240];
    uint32_t w = 0;
    for (int i = 0; i < 4; i++) w |= (uint32_t)byte() << (8 * i);
    return w;
}

/* One of so many numbers that are known, from 1 on, or any. */
static uint32_t choice(uint32_t known) {
    uint8_t b = byte();
    return b < 250 ? 1 + b % known : word();
}

static size_t size(void) {
    uint8_t b = byte();
    if (b < 250) return b;
    return (size_t)word() << (b % 2 ? 32 : 0);
}

/* The next place, with room for a list of so many bytes that ends where the page above it begins. */
static void *place(size_t n, int output) {
    if (!places[taken]) {
        uint8_t *all = mmap(0, ROOM + 2 * PAGE, PROT_NONE, MAP_PRIVATE | MAP_ANONYMOUS, -1, 0);
        if (all == MAP_FAILED || mprotect(all + PAGE, ROOM, PROT_READ | PROT_WRITE)) abort();
        places[taken] = all + PAGE;
    }
    uint8_t *list = places[taken] + ROOM - n;
    memset(list - BESIDE, KNOWN, BESIDE);
    bytes[taken] = n;
    outputs[taken] = output;
    taken++;
    return list;
}

/* Called when the list's content stands. */
static void lent(void *list) { memcpy(copies[taken - 1], list, bytes[taken - 1]); }

typedef struct {
    uint32_t *at;
    size_t n;
} words;

/* Up to 1,000 words; a byte of 255 for the length: many equal ones. */
static words list(int output) {
    size_t n = byte();
    size_t many = n == 255 ? 1000 : n;
    uint32_t *at = place(4 * many, output);
    uint32_t w = 0;
    for (size_t i = 0; i < many; i++) at[i] = n == 255 && i ? w : (w = word());
    lent(at);
    return (words){at, many};
}

/* Small outputs, which a refusal leaves as they were. */
static void *small(size_t n) {
    void *at = place(n, 1);
    memset(at, 7, n);
    lent(at);
    return at;
}

typedef struct {
    uint8_t *at;
    size_t n;
} names;

static names name_list(int output) {
    size_t n = byte();
    uint8_t *at = place(n, output);
    for (size_t i = 0; i < n; i++) at[i] = byte();
    lent(at);
    return (names){at, n};
}

static void check(uint32_t number, const uint64_t *details) {
    static const int named[21] = {[6] = 3, [13] = 2, [14] = 2, [15] = 2, [17] = 2, [18] = 3, [19] = 1};
    if (20 < number) abort();
    for (int i = named[number]; i < 3; i++)
        if (details[i]) abort();
    for (int i = 0; i < taken; i++) {
        uint8_t *at = places[i] + ROOM - bytes[i];
        for (int j = 1; j <= BESIDE; j++)
            if (at[-j] != KNOWN) abort();
        int kept = !outputs[i] || (1 <= number && number <= 12);
        if (kept && memcmp(at, copies[i], bytes[i])) abort();
    }
}

#define L(x) x.at, x.n
#define LOOKUPS L(lookups), L(name), L(tuples), L(multiplicities), L(flags), L(elements)

int LLVMFuzzerTestOneInput(const uint8_t *data, size_t n) {
    input = data;
    left = n;
    taken = 0;
    uint64_t details[3] = {7, 7, 7}, *used = small(6 * sizeof(uint64_t)), *one = small(sizeof(uint64_t)), *part = small(2 * sizeof(uint64_t));
    uint32_t *terminal = small(5 * sizeof(uint32_t)), *count = small(2 * sizeof(uint32_t)), number = 0;
    uint8_t function = byte() % 17;
    uint32_t field = choice(2), profile = choice(2), rule = choice(2);
    int unknown = 2 < field || field == 0;
    /* Powers and inverses take the field alone, generation and constraints the rule too; three functions take no choices. */
    if (function < 12) unknown |= 2 < profile || profile == 0;
    if (function < 2) unknown |= 2 < rule || rule == 0;
    if (12 <= function && function <= 14) unknown = 0;
    size_t a = size(), b = size(), c = size(), d = size();
    words nodes = list(0), lookups = list(0), tuples = list(0), multiplicities = list(0), flags = list(0), elements = list(0);
    names name = name_list(0);
    words main = list(0), preprocessed = list(0), publics = list(0), more = list(0), out = list(1);
    switch (function) {
    case 0:
        number = delmatik_generate(field, profile, rule, a, b, c, d, L(main), L(preprocessed), L(publics), L(nodes), LOOKUPS, L(more), L(out),
            terminal, details);
        break;
    case 1:
        number = delmatik_constraints(field, profile, rule, a, b, c, d, L(main), L(preprocessed), L(publics), L(nodes), LOOKUPS, L(more), a + 1,
            L(out), byte() % 2, word(), word(), word(), word(), details);
        break;
    case 2:
        number = delmatik_degree(field, profile, a, b, c, L(nodes), LOOKUPS, d, byte(), one, details);
        break;
    case 3: {
        names o1 = name_list(1);
        words o2 = list(1), o3 = list(1), o4 = list(1), o5 = list(1);
        number = delmatik_pack(field, profile, d, a, b, c, L(nodes), LOOKUPS, L(out), L(o1), L(o2), L(o3), L(o4), L(o5), used, details);
        break;
    }
    case 4:
        number = delmatik_widths(field, profile, L(lookups), L(name), L(tuples), L(more), one, details);
        break;
    case 5:
        number = delmatik_height_bound(field, profile, L(lookups), L(more), L(publics), details);
        break;
    case 6:
        number = delmatik_terminals(field, profile, L(more), details);
        break;
    case 7:
        number = delmatik_prefixes(field, profile, L(main), L(preprocessed), a, b, L(out), details);
        break;
    case 8:
        number = delmatik_build(field, profile, a, b, c, L(nodes), d, byte(), byte(), L(lookups), L(publics), L(name), L(tuples),
            L(multiplicities), L(flags), L(elements), L(out), one, details);
        break;
    case 9:
        number = delmatik_balance(field, profile, L(main), L(preprocessed), L(publics), L(nodes), LOOKUPS, L(more), d, L(out), details);
        break;
    case 10:
        number = delmatik_count_from_i32(field, profile, L(out), a, (int32_t)word(), count, details);
        break;
    case 11:
        number = delmatik_count_negated(field, profile, L(out), a, word(), word(), count, details);
        break;
    case 12:
        delmatik_count_bounded(word(), word(), count);
        memset(details, 0, sizeof details);
        break;
    case 13:
        delmatik_count_provided(word(), count);
        memset(details, 0, sizeof details);
        break;
    case 14:
        delmatik_row(L(main), a, b, c, part);
        if (main.n < part[1] || main.n - part[1] < part[0]) abort();
        memset(details, 0, sizeof details);
        break;
    case 15:
        number = delmatik_power(field, L(main), word() % 1024, L(out));
        memset(details, 0, sizeof details);
        break;
    default:
        number = delmatik_inverse(field, L(main), L(out));
        memset(details, 0, sizeof details);
    }
    if (unknown && number != 1) abort();
    check(number, details);
    return 0;
}
