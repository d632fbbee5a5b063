/* forged: findings that no call gave (R-14).
 *
 * A million times sixteen numbers, of which the first alone is right, go through both calls that take findings, with random bytes in the buffer and under a random
 * table. Whatever they say: nothing outside of what is lent is touched, no more is consumed than there is, what is left stands at the buffer's front, the findings
 * are about as many bytes, and the same call on the same memory does the same again. What is lent ends where a page begins that can't be touched, so that a read
 * behind it ends the program; the bytes before it must stay.
 * The seed is fixed. Status 0: all was so; 1: a line on standard error says what wasn't, and in which round. */
#include "walumbeex.h"

#include <fcntl.h>
#include <stdio.h>
#include <stdlib.h>
#include <string.h>
#include <sys/mman.h>
#include <unistd.h>

#define ROUNDS 1000000u

/* What is lent. */
enum { STATE, FINDINGS, OUT, TABLE, PIECE, BUF, SLOT, QUEUE, MEMORIES };

/* The most bytes of each but the queue's, and those before each that must stay. */
enum { MOST = 128, BEFORE = 16, WHOLE = BEFORE + WX_RECORD };

static uint8_t *behind[MEMORIES];
static size_t len[MEMORIES];
static unsigned round_no;

static uint8_t *lent(int memory)
{
    return behind[memory] - len[memory];
}

static uint64_t *numbers(int memory)
{
    return (uint64_t *)(void *)lent(memory);
}

/* Stops where something doesn't hold: what then is so. */
static void must(int holds, const char *what)
{
    if (holds)
        return;
    fprintf(stderr, "forged: round %u: %s\n", round_no, what);
    exit(1);
}

/* A page for each memory, and behind it one that can't be touched. */
static void make_pages(void)
{
    const size_t page = (size_t)sysconf(_SC_PAGESIZE);
    const int zeros = open("/dev/zero", O_RDWR);
    uint8_t *pages = zeros < 0 ? MAP_FAILED : mmap(NULL, 2 * MEMORIES * page, PROT_READ | PROT_WRITE, MAP_PRIVATE, zeros, 0);
    must(pages != MAP_FAILED, "no memory");
    for (int m = 0; m < MEMORIES; m++) {
        behind[m] = pages + (size_t)(2 * m + 1) * page;
        must(mprotect(behind[m], page, PROT_NONE) == 0, "no page can be kept from being touched");
    }
}

/* Splitmix64. */
static uint64_t next(void)
{
    static uint64_t seed = 14;
    uint64_t z = seed += UINT64_C(0x9E3779B97F4A7C15);
    z = (z ^ (z >> 30)) * UINT64_C(0xBF58476D1CE4E5B9);
    z = (z ^ (z >> 27)) * UINT64_C(0x94D049BB133111EB);
    return z ^ (z >> 31);
}

static size_t below(size_t n)
{
    return (size_t)(next() % n);
}

/* Bytes of which a stream is made, as many as are asked for. */
static void fill(uint8_t *bytes, size_t n)
{
    static const char *const texts[] = {
        "\r\n", "\r\nOK\r\n", "\r\nERROR\r\n", "\r\nNA\r\n", "\r\n+CME ERROR:", "\r\nMODEM ERROR: ", "\r\nCONNECT", "\r\nCONNECT 1\r\n", "\r\nBUSY\r\n",
        "OK\r\n", "NO CARRIER", "+A", "+A: 1\r\n", "7", "70000", ">", "@", " ", "\r", "\n", "x", "0\r", "2\r",
    };
    for (size_t at = 0, k; at < n; at += k) {
        const char *text = texts[below(sizeof texts / sizeof texts[0])];
        k = strlen(text) < n - at ? strlen(text) : n - at;
        memcpy(bytes + at, text, k);
    }
}

/* A table: none, up to three records, or, seldom, any bytes. */
static void make_table(void)
{
    static const char *const records[] = {"UR\2+A", "UR\2OK", "CS\2OK", "CE\2NA", "CP$\1x", "CP>\1>"};
    uint8_t table[MOST];
    len[TABLE] = 0;
    for (size_t n = below(4); n > 0; n--) {
        const char *record = records[below(sizeof records / sizeof records[0])];
        memcpy(table + len[TABLE], record, strlen(record));
        len[TABLE] += strlen(record);
    }
    if (below(32) == 0)
        fill(table, len[TABLE] = below(8));
    memcpy(lent(TABLE), table, len[TABLE]);
}

/* A number such as findings have, or one that they can't have. */
static uint64_t forged(uint64_t end)
{
    switch (below(8)) {
    case 0:
        return 0;
    case 1:
        return end + below(4) - 1;
    case 2:
        return UINT64_MAX - below(4);
    case 3:
        return next() << 32 | below(MOST);
    case 4:
        return next();
    default:
        return below(MOST);
    }
}

/* A state that fits, now and then one that doesn't; and findings: the first number is right, and all others are forged, or a few. */
static void make_numbers(void)
{
    uint64_t *state = numbers(STATE), *findings = numbers(FINDINGS);
    wx_slot_new(state);
    wx_queue_new(state);
    state[WX_END] = below(len[BUF] + 1);
    state[WX_SIGNALLED] = below(2);
    state[WX_LEN] = below(len[SLOT] + 1);
    state[WX_COUNT] = below(wx_queue_capacity(len[QUEUE]) + 1);
    if (below(64) == 0)
        state[below(WX_NUMBERS)] = forged(state[WX_END]);
    wx_findings_start(findings, state, lent(BUF), len[BUF]);
    const size_t one_in = below(2) == 0 ? 1 : 6;
    findings[0] = state[WX_END];
    for (size_t n = 1; n < WX_FINDINGS; n++)
        if (below(one_in) == 0)
            findings[n] = forged(state[WX_END]);
}

/* All that is lent, with the bytes before it. */
struct kept {
    uint8_t bytes[MEMORIES][WHOLE];
};

static void keep(struct kept *k)
{
    for (int m = 0; m < MEMORIES; m++)
        memcpy(k->bytes[m], lent(m) - BEFORE, BEFORE + len[m]);
}

static void put_back(const struct kept *k)
{
    for (int m = 0; m < MEMORIES; m++)
        memcpy(lent(m) - BEFORE, k->bytes[m], BEFORE + len[m]);
}

static int is_as(const struct kept *k, int memory, size_t n)
{
    return memcmp(lent(memory) - BEFORE, k->bytes[memory], n) == 0;
}

/* How often a call consumed nothing, consumed something, met a full queue, was refused otherwise. */
static unsigned still, consumed, full, refused;

#define LENT digester, lent(TABLE), len[TABLE], lent(BUF), len[BUF], lent(SLOT), len[SLOT], lent(QUEUE), len[QUEUE], numbers(OUT)

/* A write of n bytes of the piece, or an advance by n. */
static uint32_t call(int writes, size_t n, uint32_t digester)
{
    if (writes)
        return wx_feed_write(numbers(STATE), numbers(FINDINGS), lent(PIECE), n, LENT);
    return wx_feed_advance(numbers(STATE), numbers(FINDINGS), n, LENT);
}

/* What holds behind any call, given all as it was before. */
static void judge(const struct kept *was, uint32_t refusal, int writes, size_t n)
{
    for (int m = 0; m < MEMORIES; m++)
        must(is_as(was, m, BEFORE), "bytes before what is lent have changed");
    must(is_as(was, TABLE, BEFORE + len[TABLE]) && is_as(was, PIECE, BEFORE + len[PIECE]), "the table or the piece has changed");
    if (refusal != WX_DONE && refusal != WX_FULL) {
        must(refusal < WX_FULL, "there is no such refusal");
        for (int m = 0; m < MEMORIES; m++)
            must(m == OUT || is_as(was, m, BEFORE + len[m]), "a refused call has changed something");
        refused++;
        return;
    }
    const uint64_t *state = numbers(STATE);
    uint64_t end;
    memcpy(&end, was->bytes[STATE] + BEFORE, sizeof end);
    const size_t taken = writes ? numbers(OUT)[0] : n, left = state[WX_END];
    must(taken <= n, "more was taken than there was");
    must(left <= end + taken && left <= len[BUF], "END is past what there is");
    must(numbers(FINDINGS)[0] == left, "the findings are about another number of bytes");
    must(state[WX_LEN] <= len[SLOT] && state[WX_COUNT] <= wx_queue_capacity(len[QUEUE]), "the slot or the queue has more than its memory");
    /* what is left are the last of the bytes that were there and of those that came */
    uint8_t all[2 * MOST];
    memcpy(all, was->bytes[BUF] + BEFORE, end);
    memcpy(all + end, was->bytes[writes ? PIECE : BUF] + BEFORE + (writes ? 0 : end), taken);
    must(memcmp(lent(BUF), all + end + taken - left, left) == 0, "other bytes are left");
    full += refusal == WX_FULL;
    still += left == end + taken;
    consumed += left < end + taken;
}

/* A call, judged, and once more from the same memory. */
static void twice(const struct kept *was, int writes, size_t n, uint32_t digester)
{
    static struct kept first;
    put_back(was);
    const uint32_t refusal = call(writes, n, digester);
    judge(was, refusal, writes, n);
    keep(&first);
    put_back(was);
    must(call(writes, n, digester) == refusal, "the same call was answered in another way");
    for (int m = 0; m < MEMORIES; m++)
        must(is_as(&first, m, BEFORE + len[m]), "the same call left something else");
}

int main(void)
{
    static struct kept was;
    make_pages();
    len[STATE] = WX_NUMBERS * sizeof(uint64_t);
    len[FINDINGS] = WX_FINDINGS * sizeof(uint64_t);
    len[OUT] = WX_OUT * sizeof(uint64_t);
    for (round_no = 0; round_no < ROUNDS; round_no++) {
        len[PIECE] = below(32);
        len[BUF] = below(MOST / 2);
        len[SLOT] = below(16);
        len[QUEUE] = below(8) == 0 ? WX_RECORD : below(16);
        make_table();
        fill(lent(PIECE), len[PIECE]);
        fill(lent(BUF), len[BUF]);
        make_numbers();
        keep(&was);
        const uint64_t end = numbers(STATE)[WX_END];
        const size_t room = end < len[BUF] ? len[BUF] - end : 0;
        const uint32_t digester = (uint32_t)below(len[TABLE] > 0 ? 2 : 3);
        twice(&was, 1, len[PIECE], digester);
        twice(&was, 0, below(room + 2), digester);
    }
    must(still > ROUNDS / 10 && consumed > ROUNDS / 10 && full > ROUNDS / 100 && refused > ROUNDS / 100, "too little of something was met");
    printf("forged: %u findings through two calls each: nothing consumed %u, something %u, a full queue %u, refused %u\n", ROUNDS, still, consumed, full, refused);
    return 0;
}
