/* Calls every function of include/walumbeex.h and compares what it answers and leaves: document 01's known examples, its refusals, and that what
 * must stay stays. The expected numbers are written by hand from document 01, those of a parameter list from R-4, of an answer that is written from R-12 and of
 * findings from R-14; a call with findings is held to the same call without.
 * Each difference is a line on standard error; status 0 where there is none. */
#include "walumbeex.h"

#include <stdio.h>
#include <string.h>

/* What stands in an array before a call. */
#define WAS 77

#define TABLE "UR\7+UUSORD"

/* A caller's arrays are of this length: where one of these changes, so does the version. */
#if WX_VERSION != 6u || WX_NUMBERS != 10 || WX_OUT != 9 || WX_ELEMENTS != 256 || WX_ELEMENT != 6 || WX_FINDINGS != 16
#error "an array has changed: raise WX_VERSION and wx_version, and write the new lengths here"
#endif

static int differences;

static void same(const char *what, uint64_t said, uint64_t expected)
{
    if (said == expected)
        return;
    differences++;
    fprintf(stderr, "exports: %s: %llu and not %llu\n", what, (unsigned long long)said, (unsigned long long)expected);
}

static void same_all(const char *what, const uint64_t *said, size_t n, const uint64_t *expected, size_t told)
{
    char name[100];
    snprintf(name, sizeof name, "%s, how many numbers are expected", what);
    same(name, told, n);
    for (size_t i = 0; i < n && i < told; i++) {
        snprintf(name, sizeof name, "%s, number %zu", what, i);
        same(name, said[i], expected[i]);
    }
}

/* All the numbers of an array: one that is left out would be expected to be 0. */
#define ALL_OF(...) (const uint64_t[]){__VA_ARGS__}, sizeof((const uint64_t[]){__VA_ARGS__}) / sizeof(uint64_t)
#define OUT(what, ...) same_all(what, out, WX_OUT, ALL_OF(__VA_ARGS__))
#define STATE(what, ...) same_all(what, state, WX_NUMBERS, ALL_OF(__VA_ARGS__))

static void same_bytes(const char *what, const void *said, const char *expected, size_t n)
{
    same(what, memcmp(said, expected, n) != 0, 0);
}

static void reset_to_was(uint64_t *numbers, size_t n)
{
    for (size_t i = 0; i < n; i++)
        numbers[i] = WAS;
}

/* The digesters that take a table, and numbers that no digester has. */
static const uint32_t digesters[] = {WX_VERBOSE, WX_CONNECT, 3, UINT32_MAX};
#define DIGESTERS (sizeof digesters / sizeof digesters[0])

/* Which of them answer so: all, WX_CONNECT alone, or all but that. */
enum whose { ALL, CONNECT, VERBOSE };

static int answers_so(enum whose whose, uint32_t digester)
{
    return whose == ALL || (whose == CONNECT) == (digester == WX_CONNECT);
}

static const struct example {
    enum whose whose;
    const char *table;
    size_t table_len;
    const char *input;
    size_t input_len;
    uint64_t kind, number;
    const char *payload;
    uint64_t consumed, digits_place;
    const char *digits;
    uint64_t text_place;
    const char *text;
} examples[] = {
#define EXAMPLE(table, input, kind, number, payload, consumed) \
    {ALL, table, sizeof table - 1, input, sizeof input - 1, kind, number, payload, consumed, 0, "", 0, ""}
#define NUMERIC(input, kind, number, consumed, digits_place, digits) \
    {ALL, "", 0, input, sizeof input - 1, kind, number, "", consumed, digits_place, digits, 0, ""}
#define TEXT(input, payload, consumed, text_place, text) \
    {CONNECT, "", 0, input, sizeof input - 1, WX_OK, 0, payload, consumed, 0, "", text_place, text}
#define WITHOUT(input, kind, payload, consumed) \
    {VERBOSE, "", 0, input, sizeof input - 1, kind, 0, payload, consumed, 0, "", 0, ""}
    EXAMPLE("", "", WX_NONE, 0, "", 0),
    EXAMPLE("", "   ", WX_NONE, 0, "", 3),
    EXAMPLE("", "\r\nOK\r\n", WX_OK, 0, "", 6),
    EXAMPLE("", "\r\nERROR\r\n\r\nOK\r\n", WX_OK, 0, "ERROR", 15),
    NUMERIC("\r\n+CME ERROR: 65535\r\n", WX_CME, 65535, 21, 14, "65535"),
    EXAMPLE("", "\r\n+CME ERROR: 65536\r\n", WX_NONE, 0, "", 0),
    NUMERIC("\r\n+CMS ERROR:\t7\n", WX_CMS, 7, 16, 14, "7"),
    NUMERIC("\r\n+CME ERROR: 0010\r\n", WX_CME, 10, 20, 14, "0010"),
    NUMERIC("x\r\n+CME ERROR: 99999\r\n\r\n+CME ERROR: 0010\r\n", WX_CME, 10, 42, 36, "0010"),
    NUMERIC("\r\nMODEM ERROR:007\n", WX_UNKNOWN, 0, 18, 14, "007"),
    NUMERIC("\r\n+CMS ERROR:\r\n \t 00\r\n", WX_CMS, 0, 22, 18, "00"),
    EXAMPLE("", ">\r\n", WX_NONE, 0, "", 1),
    EXAMPLE("", "\r\na>b\r\n>", WX_PROMPT, '>', "", 8),
    EXAMPLE("", "x\r\n\r\nNA\r\n", WX_NOT_ALLOWED, 0, "", 9),
    EXAMPLE("", "\r\nok\r\n", WX_NONE, 0, "", 0),
    EXAMPLE("", "\r\nBUSY\r\n\r\nERROR\r\n", WX_ERROR, 0, "", 17),
    EXAMPLE(TABLE, "\r\nRING\r\n\r\n+UUSORD: 0,4\r\n", WX_NOTICE, 0, "+UUSORD: 0,4", 24),
    EXAMPLE(TABLE, "\r\n+UUSO", WX_NONE, 0, "", 0),
    EXAMPLE(TABLE, "\r\n+UUSORD: >", WX_PROMPT, '>', "", 12),
    /* a longer CONNECT line, heard and not heard */
    TEXT("\r\nCONNECT 9600\r\n", "", 16, 10, "9600"),
    WITHOUT("\r\nCONNECT 9600\r\n", WX_NONE, "", 0),
    TEXT("ATD1\r\r\nCONNECT 9600\r\n", "", 21, 15, "9600"),
    WITHOUT("ATD1\r\r\nCONNECT 9600\r\n", WX_NONE, "", 5),
    TEXT("\r\nCONNECT  9600 \r\n", "", 18, 10, " 9600 "),
    TEXT("\r\nCONNECT a\rb\nc\r\r\n", "", 18, 10, "a\rb\nc\r"),
    TEXT("\r\nCONNECT \r\n", "", 12, 0, ""),
    WITHOUT("\r\nCONNECT \r\n", WX_NONE, "", 0),
    /* the first of either */
    TEXT("\r\nCONNECT 1\r\nCONNECT\r\n", "", 13, 10, "1"),
    WITHOUT("\r\nCONNECT 1\r\nCONNECT\r\n", WX_OK, "CONNECT 1", 22),
    TEXT("\r\nCONNECT 9600\r\n\r\nCONNECT\r\n", "", 16, 10, "9600"),
    EXAMPLE("", "\r\nCONNECT\r\n\r\nCONNECT 9600\r\n", WX_OK, 0, "", 11),
    /* before an error, and behind OK and a custom success */
    TEXT("\r\nERROR\r\n\r\nCONNECT 1\r\n", "ERROR", 22, 19, "1"),
    WITHOUT("\r\nERROR\r\n\r\nCONNECT 1\r\n", WX_ERROR, "", 9),
    EXAMPLE("", "\r\nCONNECT 9600\r\n\r\nOK\r\n", WX_OK, 0, "CONNECT 9600", 22),
    EXAMPLE("CS\5READY", "\r\nCONNECT 1\r\n\r\nREADY\r\n", WX_OK, 0, "CONNECT 1", 22),
    /* no CONNECT line, or none that is finished */
    EXAMPLE("", "\r\nCONNECT\t9600\r\n", WX_NONE, 0, "", 0),
    EXAMPLE("", "\r\nCONNECT9600\r\n", WX_NONE, 0, "", 0),
    EXAMPLE("", "\r\nCONNECT 9600\r", WX_NONE, 0, "", 0),
    EXAMPLE("", "\r\nCONNECT >", WX_PROMPT, '>', "", 11),
};

/* wx_payload gives what a digest has named. */
static void part_of(const struct example *e, uint64_t place, uint64_t len, const char *expected)
{
    const uint8_t *input = (const uint8_t *)e->input;
    uint64_t part[WX_OUT];
    reset_to_was(part, WX_OUT);
    wx_payload(input, e->input_len, place, len, part);
    same("payload, place", part[0], place);
    same("payload, length", part[1], len);
    for (size_t i = 2; i < WX_OUT; i++)
        same("payload, the rest", part[i], WAS);
    same_bytes("payload", input + part[0], expected, part[1]);
}

static void digest_one(const struct example *e, uint32_t digester)
{
    uint64_t out[WX_OUT];
    reset_to_was(out, WX_OUT);
    same("digest", wx_digest(digester, (const uint8_t *)e->table, e->table_len, (const uint8_t *)e->input, e->input_len, out), WX_DONE);
    same("digest, kind", out[0], e->kind);
    same("digest, number", out[1], e->number);
    same("digest, payload's length", out[3], strlen(e->payload));
    same("digest, consumed", out[4], e->consumed);
    same("digest, digits' place", out[5], e->digits_place);
    same("digest, digits' length", out[6], strlen(e->digits));
    same("digest, text's place", out[7], e->text_place);
    same("digest, text's length", out[8], strlen(e->text));
    part_of(e, out[2], out[3], e->payload);
    part_of(e, out[5], out[6], e->digits);
    part_of(e, out[7], out[8], e->text);
}

static void digest(void)
{
    for (size_t i = 0; i < sizeof examples / sizeof examples[0]; i++)
        for (size_t d = 0; d < DIGESTERS; d++)
            if (answers_so(examples[i].whose, digesters[d]))
                digest_one(&examples[i], digesters[d]);
}

static void digest_refusals(uint32_t digester)
{
    static const uint8_t longest[WX_LONGEST + 1];
    static const uint8_t faulty[] = "UR\4RINGUR\1 ", input[] = "\r\nOK\r\n";
    uint64_t out[WX_OUT];
    reset_to_was(out, WX_OUT);
    same("4,097 bytes", wx_digest(digester, faulty, sizeof faulty - 1, longest, sizeof longest, out), WX_TOO_LONG);
    OUT("4,097 bytes", WAS, WAS, WAS, WAS, WAS, WAS, WAS, WAS, WAS);
    same("a faulty table", wx_digest(digester, faulty, sizeof faulty - 1, input, sizeof input - 1, out), WX_BAD_TABLE);
    OUT("a faulty table", 1, WAS, WAS, WAS, WAS, WAS, WAS, WAS, WAS);
    same("4,096 bytes", wx_digest(digester, faulty, 0, longest, WX_LONGEST, out), WX_DONE);
    OUT("4,096 bytes", WX_NONE, 0, 0, 0, 0, 0, 0, 0, 0);
    reset_to_was(out, WX_OUT);
    wx_payload(input, 6, 2, 5, out);
    OUT("a part that doesn't fit", 0, 0, WAS, WAS, WAS, WAS, WAS, WAS, WAS);
    wx_payload(input, 6, SIZE_MAX, SIZE_MAX, out);
    OUT("a part past all memory", 0, 0, WAS, WAS, WAS, WAS, WAS, WAS, WAS);
    wx_payload(input, 6, 2, 4, out);
    OUT("a part that just fits", 2, 4, WAS, WAS, WAS, WAS, WAS, WAS, WAS);
}

/* By hand from R-1: what of `out` isn't 0, the payload's place too, since a digit may stand in the input twice. */
static const struct code {
    const char *input;
    uint64_t kind, number, place, len, consumed;
} codes[] = {
    {"0\r", WX_OK, 0, 0, 0, 2},
    {"1\r", WX_OK, 0, 0, 0, 2},
    {"2\r", WX_NOTICE, WX_RING, 0, 1, 2},
    {"3\r", WX_NO_CARRIER, 0, 0, 0, 2},
    {"4\r", WX_ERROR, 0, 0, 0, 2},
    {"6\r", WX_NO_DIALTONE, 0, 0, 0, 2},
    {"7\r", WX_BUSY, 0, 0, 0, 2},
    {"8\r", WX_NO_ANSWER, 0, 0, 0, 2},
    /* a payload, from behind the last lone CR or from the first byte on, trimmed */
    {"+CSQ: 17,99\r\n0\r", WX_OK, 0, 0, 11, 15},
    {"AT+CSQ\r+CSQ: 17,99\r\n0\r", WX_OK, 0, 7, 11, 22},
    {"a\rb\r \t\f\n+X: 1\r\n+X: 2 \r\n1\r", WX_OK, 0, 8, 12, 25},
    {"0\r\n0\r", WX_OK, 0, 0, 1, 5},
    {"x\r\r\n0\r", WX_OK, 0, 0, 0, 6},
    /* what stands before another code isn't heard */
    {"+CSQ: 1\r\n2\r0\r", WX_NOTICE, WX_RING, 9, 1, 11},
    {"2\r\n2\r", WX_NOTICE, WX_RING, 3, 1, 5},
    {"ATD1\r7\r", WX_BUSY, 0, 0, 0, 7},
    {"+CSQ: 1\r\n4\r", WX_ERROR, 0, 0, 0, 11},
    /* the leftmost; no LF right behind its CR */
    {"4\r0\r", WX_ERROR, 0, 0, 0, 2},
    {"0\r\r\n", WX_OK, 0, 0, 0, 2},
    {"0\r\n", WX_NONE, 0, 0, 0, 0},
    /* no listed digit, or none at a line start, or no CR right behind it; and nothing is skipped */
    {"", WX_NONE, 0, 0, 0, 0},
    {"0", WX_NONE, 0, 0, 0, 0},
    {"5\r", WX_NONE, 0, 0, 0, 0},
    {"9\r", WX_NONE, 0, 0, 0, 0},
    {"10\r", WX_NONE, 0, 0, 0, 0},
    {" 0\r", WX_NONE, 0, 0, 0, 0},
    {"\n0\r", WX_NONE, 0, 0, 0, 0},
    {"0 \r", WX_NONE, 0, 0, 0, 0},
    {"   ", WX_NONE, 0, 0, 0, 0},
    /* what the others hear */
    {"\r\nOK\r\n", WX_NONE, 0, 0, 0, 0},
    {"\r\n+CME ERROR: 10\r\n", WX_NONE, 0, 0, 0, 0},
    {"\r\n> ", WX_NONE, 0, 0, 0, 0},
};

static void digest_numeric(void)
{
    for (size_t i = 0; i < sizeof codes / sizeof codes[0]; i++) {
        const struct code *c = &codes[i];
        const uint8_t *input = (const uint8_t *)c->input;
        uint64_t out[WX_OUT];
        char name[30];
        snprintf(name, sizeof name, "V0, input %zu", i);
        reset_to_was(out, WX_OUT);
        same(name, wx_digest(WX_NUMERIC, input, 0, input, strlen(c->input), out), WX_DONE);
        OUT(name, c->kind, c->number, c->place, c->len, c->consumed, 0, 0, 0, 0);
    }
}

/* A table that isn't empty is refused with record 0, good or not; an input that is too long comes first. */
static void digest_numeric_refusals(void)
{
    static const uint8_t longest[WX_LONGEST + 1], input[] = "0\r";
    static const struct {
        const char *bytes;
        size_t len;
    } tables[] = {{TABLE, sizeof TABLE - 1}, {"UR\4RINGUR\1 ", 11}, {"?", 1}, {"\0", 1}};
    for (size_t i = 0; i < sizeof tables / sizeof tables[0]; i++) {
        const uint8_t *table = (const uint8_t *)tables[i].bytes;
        uint64_t out[WX_OUT];
        reset_to_was(out, WX_OUT);
        same("V0, 4,097 bytes", wx_digest(WX_NUMERIC, table, tables[i].len, longest, sizeof longest, out), WX_TOO_LONG);
        OUT("V0, 4,097 bytes", WAS, WAS, WAS, WAS, WAS, WAS, WAS, WAS, WAS);
        same("V0, a table", wx_digest(WX_NUMERIC, table, tables[i].len, input, sizeof input - 1, out), WX_BAD_TABLE);
        OUT("V0, a table", 0, WAS, WAS, WAS, WAS, WAS, WAS, WAS, WAS);
        same("V0, 4,096 bytes", wx_digest(WX_NUMERIC, table, 0, longest, WX_LONGEST, out), WX_DONE);
        OUT("V0, 4,096 bytes", WX_NONE, 0, 0, 0, 0, 0, 0, 0, 0);
    }
}

/* The deepest retry; stacks.c gives it the stack that the header says. */
static void deepest(uint32_t digester)
{
    static uint8_t crlfs[WX_LONGEST];
    uint64_t out[WX_OUT];
    for (size_t i = 0; i < WX_LONGEST; i++)
        crlfs[i] = i % 2 == 0 ? '\r' : '\n';
    same("2,048 CRLFs", wx_digest(digester, crlfs, 0, crlfs, WX_LONGEST, out), WX_DONE);
    OUT("2,048 CRLFs", WX_NONE, 0, 0, 0, 0, 0, 0, 0, 0);
}

static void table_check(void)
{
    static const uint8_t good[] = "UR\4RINGCS\2GO", faulty[] = "UR\4RINGUR\0";
    uint64_t out[WX_OUT];
    reset_to_was(out, WX_OUT);
    same("the empty table", wx_table_check(good, 0, out), WX_DONE);
    OUT("the empty table", 0, WAS, WAS, WAS, WAS, WAS, WAS, WAS, WAS);
    same("a table of two", wx_table_check(good, sizeof good - 1, out), WX_DONE);
    OUT("a table of two", 2, WAS, WAS, WAS, WAS, WAS, WAS, WAS, WAS);
    same("the header's example", wx_table_check((const uint8_t *)"UR\7+UUSORD" "CS\7SHUT OK" "CP$\5SEND:", 29, out), WX_DONE);
    OUT("the header's example", 3, WAS, WAS, WAS, WAS, WAS, WAS, WAS, WAS);
    same("an empty text", wx_table_check(faulty, sizeof faulty - 1, out), WX_BAD_TABLE);
    OUT("an empty text", 1, WAS, WAS, WAS, WAS, WAS, WAS, WAS, WAS);
}

static void slot(void)
{
    uint64_t state[WX_NUMBERS], out[WX_OUT];
    uint8_t mem[] = {'a', 'b', 'c', 'd'};
    reset_to_was(state, WX_NUMBERS);
    reset_to_was(out, WX_OUT);
    wx_slot_new(state);
    STATE("a new slot", WAS, 0, WX_OK, 0, 0, 0, WAS, WAS, WAS, 0);
    same("a look at a free slot", wx_slot_lookup(state, mem, sizeof mem, out), WX_DONE);
    OUT("a look at a free slot", 0, WAS, WAS, WAS, WAS, WAS, WAS, WAS, WAS);

    static const uint64_t ok[WX_OUT] = {WX_OK, 0, 2, 3, 9}, cme[WX_OUT] = {WX_CME, 10, 0, 0, 9}, none[WX_OUT] = {WX_NONE};
    same("a signal", wx_slot_signal(state, ok, (const uint8_t *)"xyz", 3, mem, sizeof mem), WX_DONE);
    STATE("a signal", WAS, 1, WX_OK, 0, 3, 0, WAS, WAS, WAS, 0);
    same_bytes("a signal, memory", mem, "xyzd", 4);
    same("a signal that is lost", wx_slot_signal(state, cme, (const uint8_t *)"", 0, mem, sizeof mem), WX_DONE);
    same("a signal of None", wx_slot_signal(state, none, (const uint8_t *)"", 0, mem, sizeof mem), WX_DONE);
    STATE("a signal that is lost", WAS, 1, WX_OK, 0, 3, 1, WAS, WAS, WAS, 0);
    same("a look", wx_slot_lookup(state, mem, sizeof mem, out), WX_DONE);
    OUT("a look", 1, WX_OK, 0, 3, 0, WAS, WAS, WAS, WAS);
    reset_to_was(out, WX_OUT);
    wx_slot_payload(state, mem, sizeof mem, out);
    OUT("the stored payload", 0, 3, WAS, WAS, WAS, WAS, WAS, WAS, WAS);
    same("a reset", wx_slot_reset(state, 5, mem, sizeof mem), WX_DONE);
    STATE("a reset", WAS, 0, WX_OK, 0, 3, 1, WAS, WAS, WAS, 5);
    wx_slot_payload(state, mem, sizeof mem, out);
    OUT("a free slot's payload", 0, 0, WAS, WAS, WAS, WAS, WAS, WAS, WAS);
    same("a long Ok", wx_slot_signal(state, ok, (const uint8_t *)"12345", 5, mem, sizeof mem), WX_DONE);
    STATE("a long Ok", WAS, 1, WX_CAPACITY, 0, 0, 1, WAS, WAS, WAS, 5);
    same_bytes("a long Ok, memory", mem, "xyzd", 4);

    state[WX_LEN] = 5;
    reset_to_was(out, WX_OUT);
    same("a length past the memory, look", wx_slot_lookup(state, mem, sizeof mem, out), WX_BAD_STATE);
    OUT("a length past the memory, look", WAS, WAS, WAS, WAS, WAS, WAS, WAS, WAS, WAS);
    same("a length past the memory, reset", wx_slot_reset(state, 6, mem, sizeof mem), WX_BAD_STATE);
    same("a length past the memory, the same reset", wx_slot_reset(state, 5, mem, sizeof mem), WX_BAD_STATE);
    same("a length past the memory, signal", wx_slot_signal(state, ok, (const uint8_t *)"x", 1, mem, sizeof mem), WX_BAD_STATE);
    STATE("a length past the memory", WAS, 1, WX_CAPACITY, 0, 5, 1, WAS, WAS, WAS, 5);
    wx_slot_payload(state, mem, sizeof mem, out);
    OUT("a length past the memory, payload", 0, 0, WAS, WAS, WAS, WAS, WAS, WAS, WAS);

    /* numbers out of plain form: what a call doesn't change stays as it stood */
    state[WX_SIGNALLED] = 7, state[WX_HELD] = 99, state[WX_NUMBER] = UINT64_MAX, state[WX_LEN] = 3, state[WX_SLOT_LOST] = UINT64_MAX;
    state[WX_SERIAL] = UINT64_MAX;
    same("out of plain form, None", wx_slot_signal(state, none, (const uint8_t *)"", 0, mem, sizeof mem), WX_DONE);
    same("out of plain form, lost", wx_slot_signal(state, cme, (const uint8_t *)"", 0, mem, sizeof mem), WX_DONE);
    STATE("out of plain form, signals", WAS, 7, 99, UINT64_MAX, 3, UINT64_MAX, WAS, WAS, WAS, UINT64_MAX);
    same("out of plain form, reset", wx_slot_reset(state, 6, mem, sizeof mem), WX_DONE);
    STATE("out of plain form, reset", WAS, 0, 99, UINT64_MAX, 3, UINT64_MAX, WAS, WAS, WAS, 6);
}

static const uint64_t an_ok[WX_OUT] = {WX_OK}, a_prompt[WX_OUT] = {WX_PROMPT, '>'}, a_notice[WX_OUT] = {WX_NOTICE}, no_answer[WX_OUT] = {WX_NONE};

#define MOST 4294967295u

/* By hand from R-11: each of these takes the place of the one before, a lower one too, and 0 behind another; itself it is refused, on a free slot and on
 * a signalled one, where everything stays. */
static void slot_serial(void)
{
    static const uint32_t next[] = {1, 7, 3, 0, MOST, MOST - 1, 2147483648u, MOST, 0, 1};
    uint64_t state[WX_NUMBERS], out[WX_OUT], in_force = 0;
    uint8_t mem[] = {'a', 'b', 'c', 'd'};
#define RESET(what, serial, refusal) same(what, wx_slot_reset(state, serial, mem, sizeof mem), refusal)
#define SIGNAL(what, answer, bytes) \
    same(what, wx_slot_signal(state, answer, (const uint8_t *)bytes, sizeof bytes - 1, mem, sizeof mem), WX_DONE)
    reset_to_was(state, WX_NUMBERS);
    wx_slot_new(state);
    RESET("0 on a new slot", 0, WX_REPEATED);
    STATE("0 on a new slot", WAS, 0, WX_OK, 0, 0, 0, WAS, WAS, WAS, 0);
    same_bytes("0 on a new slot, memory", mem, "abcd", 4);
    SIGNAL("an answer", an_ok, "xyz");
    for (uint64_t i = 0; i < sizeof next / sizeof next[0]; i++) {
        RESET("the number in force, signalled", (uint32_t)in_force, WX_REPEATED);
        STATE("the number in force, signalled", WAS, 1, WX_OK, 0, 3, i, WAS, WAS, WAS, in_force);
        same_bytes("the number in force, signalled, memory", mem, "xyzd", 4);

        in_force = next[i];
        RESET("the next number", next[i], WX_DONE);
        STATE("the next number", WAS, 0, WX_OK, 0, 3, i, WAS, WAS, WAS, in_force);
        RESET("the number in force, free", next[i], WX_REPEATED);
        STATE("the number in force, free", WAS, 0, WX_OK, 0, 3, i, WAS, WAS, WAS, in_force);
        reset_to_was(out, WX_OUT);
        same("a free slot bears nothing", wx_slot_lookup(state, mem, sizeof mem, out), WX_DONE);
        OUT("a free slot bears nothing", 0, WAS, WAS, WAS, WAS, WAS, WAS, WAS, WAS);

        /* signals leave it, whatever else they do */
        SIGNAL("None", no_answer, "");
        SIGNAL("a notice", a_notice, "");
        SIGNAL("an answer", an_ok, "xyz");
        SIGNAL("a lost answer", a_prompt, "");
        STATE("signals", WAS, 1, WX_OK, 0, 3, i + 1, WAS, WAS, WAS, in_force);
        same("what it bears", wx_slot_lookup(state, mem, sizeof mem, out), WX_DONE);
        OUT("what it bears", 1, WX_OK, 0, 3, in_force, WAS, WAS, WAS, WAS);

        /* 3 before 15 */
        state[WX_LEN] = 5;
        RESET("3 before 15", next[i], WX_BAD_STATE);
        RESET("3 with another number", next[i] ^ 1, WX_BAD_STATE);
        STATE("3 before 15", WAS, 1, WX_OK, 0, 5, i + 1, WAS, WAS, WAS, in_force);
        same_bytes("3 before 15, memory", mem, "xyzd", 4);
        state[WX_LEN] = 3;
    }
}

/* A serial number over 32 bits reads as 4,294,967,295, and stays as it stood until a reset gives another. */
static void slot_serial_over(void)
{
    static const uint64_t over[] = {UINT64_C(4294967296), UINT64_C(4294967302), UINT64_C(8589934591), UINT64_MAX};
    static const uint32_t next[] = {0, 6, MOST - 1};
    for (size_t i = 0; i < 3 * sizeof over / sizeof over[0]; i++) {
        const uint64_t as_it_stood = over[i / 3];
        uint64_t state[WX_NUMBERS], out[WX_OUT];
        uint8_t mem[] = {'a', 'b', 'c', 'd'};
        reset_to_was(state, WX_NUMBERS);
        reset_to_was(out, WX_OUT);
        wx_slot_new(state);
        state[WX_SERIAL] = as_it_stood;
        RESET("over 32 bits, free", MOST, WX_REPEATED);
        STATE("over 32 bits, free", WAS, 0, WX_OK, 0, 0, 0, WAS, WAS, WAS, as_it_stood);
        SIGNAL("over 32 bits, None", no_answer, "");
        SIGNAL("over 32 bits, an answer", a_prompt, "");
        SIGNAL("over 32 bits, a lost answer", an_ok, "xyz");
        STATE("over 32 bits, signals", WAS, 1, WX_PROMPT, '>', 0, 1, WAS, WAS, WAS, as_it_stood);
        same("over 32 bits, a look", wx_slot_lookup(state, mem, sizeof mem, out), WX_DONE);
        OUT("over 32 bits, a look", 1, WX_PROMPT, '>', 0, MOST, WAS, WAS, WAS, WAS);
        RESET("over 32 bits, signalled", MOST, WX_REPEATED);
        STATE("over 32 bits, signalled", WAS, 1, WX_PROMPT, '>', 0, 1, WAS, WAS, WAS, as_it_stood);
        RESET("over 32 bits, the next number", next[i % 3], WX_DONE);
        STATE("over 32 bits, the next number", WAS, 0, WX_PROMPT, '>', 0, 1, WAS, WAS, WAS, next[i % 3]);
        same_bytes("over 32 bits, memory", mem, "abcd", 4);
    }
}

/* The digits of a numeric error in memories that are too short for them, just long enough, and longer. */
static void slot_digits(void)
{
    static const struct {
        size_t mem_len;
        uint64_t len;
        const char *mem;
    } cases[] = {{3, 0, "abcdef"}, {4, 4, "0010ef"}, {6, 4, "0010ef"}};
    /* what stands behind the number isn't used */
    static const uint64_t cme[WX_OUT] = {WX_CME, 10, WAS, WAS, WAS, WAS, WAS, WAS, WAS}, cms[WX_OUT] = {WX_CMS, 7};
    for (size_t i = 0; i < sizeof cases / sizeof cases[0]; i++) {
        const size_t mem_len = cases[i].mem_len;
        uint64_t state[WX_NUMBERS], out[WX_OUT];
        uint8_t mem[] = {'a', 'b', 'c', 'd', 'e', 'f'};
        reset_to_was(state, WX_NUMBERS);
        reset_to_was(out, WX_OUT);
        wx_slot_new(state);
        same("digits", wx_slot_signal(state, cme, (const uint8_t *)"0010", 4, mem, mem_len), WX_DONE);
        STATE("digits", WAS, 1, WX_CME, 10, cases[i].len, 0, WAS, WAS, WAS, 0);
        same_bytes("digits, memory", mem, cases[i].mem, sizeof mem);
        same("digits, look", wx_slot_lookup(state, mem, mem_len, out), WX_DONE);
        OUT("digits, look", 1, WX_CME, 10, cases[i].len, 0, WAS, WAS, WAS, WAS);
        reset_to_was(out, WX_OUT);
        wx_slot_payload(state, mem, mem_len, out);
        OUT("digits, payload", 0, cases[i].len, WAS, WAS, WAS, WAS, WAS, WAS, WAS);
        same("digits that are lost", wx_slot_signal(state, cms, (const uint8_t *)"07", 2, mem, mem_len), WX_DONE);
        STATE("digits that are lost", WAS, 1, WX_CME, 10, cases[i].len, 1, WAS, WAS, WAS, 0);
        same_bytes("digits that are lost, memory", mem, cases[i].mem, sizeof mem);
    }
}

/* A signal's bytes aren't examined, and of a kind without payload or digits none is stored. */
static void slot_bytes(void)
{
    static const struct {
        uint64_t kind, number, len;
        const char *mem;
    } cases[] = {{WX_CMS, 7, 2, "x?cd"}, {WX_UNKNOWN, 0, 2, "x?cd"}, {WX_NOT_ALLOWED, 0, 0, "abcd"}, {WX_ERROR, 0, 0, "abcd"}};
    for (size_t i = 0; i < sizeof cases / sizeof cases[0]; i++) {
        const uint64_t answer[WX_OUT] = {cases[i].kind, 7};
        uint64_t state[WX_NUMBERS];
        uint8_t mem[] = {'a', 'b', 'c', 'd'};
        reset_to_was(state, WX_NUMBERS);
        wx_slot_new(state);
        same("any bytes", wx_slot_signal(state, answer, (const uint8_t *)"x?", 2, mem, sizeof mem), WX_DONE);
        STATE("any bytes", WAS, 1, cases[i].kind, cases[i].number, cases[i].len, 0, WAS, WAS, WAS, 0);
        same_bytes("any bytes, memory", mem, cases[i].mem, sizeof mem);
    }
}

static void queue(void)
{
    uint64_t state[WX_NUMBERS], out[WX_OUT];
    uint8_t mem[WX_RECORD] = {0}, longer[WX_LONGEST_NOTICE + 1] = {0};
    same("capacity of 1,028", wx_queue_capacity(1028), 0);
    same("capacity of 1,029", wx_queue_capacity(1029), 1);
    same("capacity of 2,057", wx_queue_capacity(2057), 1);
    same("capacity of 2,058", wx_queue_capacity(2058), 2);
    same("capacity of 16,463", wx_queue_capacity(16463), 15);
    same("capacity of 17,493", wx_queue_capacity(17493), WX_RECORDS);
    same("capacity of all memory", wx_queue_capacity(SIZE_MAX), WX_RECORDS);
    reset_to_was(state, WX_NUMBERS);
    reset_to_was(out, WX_OUT);
    wx_queue_new(state);
    STATE("a new queue", WAS, WAS, WAS, WAS, WAS, WAS, 0, 0, 0, WAS);
    same("a put", wx_queue_put(state, mem, sizeof mem, 5, (const uint8_t *)"RING", 4), WX_DONE);
    STATE("a put", WAS, WAS, WAS, WAS, WAS, WAS, 0, 1, 0, WAS);
    same_bytes("a put, memory", mem, "UX\5\0\4RING", 10);
    same("a full queue", wx_queue_put(state, mem, sizeof mem, 6, (const uint8_t *)"BUSY", 4), WX_FULL);
    same("a long notice", wx_queue_put(state, mem, sizeof mem, 6, longer, sizeof longer), WX_DONE);
    STATE("a long notice", WAS, WAS, WAS, WAS, WAS, WAS, 0, 1, 1, WAS);
    same_bytes("a long notice, memory", mem, "UX\5\0\4RING", 10);
    same("a take", wx_queue_take(state, mem, sizeof mem, out), WX_DONE);
    OUT("a take", 1, 5, 5, 4, WAS, WAS, WAS, WAS, WAS);
    reset_to_was(out, WX_OUT);
    same("an empty queue", wx_queue_take(state, mem, sizeof mem, out), WX_DONE);
    OUT("an empty queue", 0, WAS, WAS, WAS, WAS, WAS, WAS, WAS, WAS);
    STATE("an empty queue", WAS, WAS, WAS, WAS, WAS, WAS, 0, 0, 1, WAS);
    state[WX_START] = 1;
    same("a start past the ring, take", wx_queue_take(state, mem, sizeof mem, out), WX_BAD_STATE);
    same("a start past the ring, put", wx_queue_put(state, mem, sizeof mem, 5, (const uint8_t *)"RING", 4), WX_BAD_STATE);
    STATE("a start past the ring", WAS, WAS, WAS, WAS, WAS, WAS, 1, 0, 1, WAS);
}

/* The length in two bytes, and what the lengths beside its bounds do, in the second record of a ring of two: an empty notice and one over 1,024 bytes are lost. */
static void queue_lengths(void)
{
    static const struct {
        size_t len;
        const char *head;
    } cases[] = {
        {0, NULL},
        {1, "UX\7\0\1"},
        {128, "UX\7\0\200"},
        {129, "UX\7\0\201"},
        {255, "UX\7\0\377"},
        {256, "UX\7\1\0"},
        {900, "UX\7\3\204"},
        {1023, "UX\7\3\377"},
        {1024, "UX\7\4\0"},
        {1025, NULL},
    };
    for (size_t i = 0; i < sizeof cases / sizeof cases[0]; i++) {
        const size_t len = cases[i].len;
        uint64_t state[WX_NUMBERS], out[WX_OUT];
        uint8_t payload[WX_LONGEST_NOTICE + 1], mem[2 * WX_RECORD + 1], expected[sizeof mem];
        memset(payload, 'p', sizeof payload);
        memset(mem, 'm', sizeof mem);
        memset(expected, 'm', sizeof expected);
        reset_to_was(state, WX_NUMBERS);
        reset_to_was(out, WX_OUT);
        wx_queue_new(state);
        state[WX_START] = 1;
        same("a length, put", wx_queue_put(state, mem, sizeof mem, 7, payload, len), WX_DONE);
        if (cases[i].head == NULL) {
            STATE("a length, lost", WAS, WAS, WAS, WAS, WAS, WAS, 1, 0, 1, WAS);
        } else {
            STATE("a length, put", WAS, WAS, WAS, WAS, WAS, WAS, 1, 1, 0, WAS);
            memcpy(expected + WX_RECORD, cases[i].head, 5);
            memcpy(expected + WX_RECORD + 5, payload, len);
        }
        same_bytes("a length, memory", mem, (const char *)expected, sizeof mem);
        same("a length, take", wx_queue_take(state, mem, sizeof mem, out), WX_DONE);
        if (cases[i].head == NULL)
            OUT("a length, lost", 0, WAS, WAS, WAS, WAS, WAS, WAS, WAS, WAS);
        else
            OUT("a length, take", 1, 7, 1034, len, WAS, WAS, WAS, WAS, WAS);
        same_bytes("a length, memory behind the take", mem, (const char *)expected, sizeof mem);
    }
}

/* The record to be taken: one of the old form, and lengths outside 1 to 1,024, are refused. */
static void queue_damaged(void)
{
    static const struct {
        const char *head;
        uint32_t refusal;
        uint64_t len;
    } cases[] = {
        {"UX\7\0\4", WX_DONE, 4},
        {"UX\7\2\0", WX_DONE, 512},
        {"UX\7\4\0", WX_DONE, 1024},
        {"UX\7\0\0", WX_BAD_STATE, 0},
        {"UX\7\4\1", WX_BAD_STATE, 0},
        {"UX\7\5\0", WX_BAD_STATE, 0},
        {"UX\7\377\377", WX_BAD_STATE, 0},
        {"UR\7\4R", WX_BAD_STATE, 0},
        {"UR\7\0\4", WX_BAD_STATE, 0},
        {"XX\7\0\4", WX_BAD_STATE, 0},
        {"Ux\7\0\4", WX_BAD_STATE, 0},
    };
    for (size_t i = 0; i < sizeof cases / sizeof cases[0]; i++) {
        uint64_t state[WX_NUMBERS], out[WX_OUT];
        uint8_t mem[WX_RECORD] = {0};
        memcpy(mem, cases[i].head, 5);
        reset_to_was(state, WX_NUMBERS);
        reset_to_was(out, WX_OUT);
        wx_queue_new(state);
        state[WX_COUNT] = 1;
        same("a record, take", wx_queue_take(state, mem, sizeof mem, out), cases[i].refusal);
        if (cases[i].refusal == WX_DONE)
            OUT("a record, take", 1, 7, 5, cases[i].len, WAS, WAS, WAS, WAS, WAS);
        else
            OUT("a record, refused", WAS, WAS, WAS, WAS, WAS, WAS, WAS, WAS, WAS);
        STATE("a record, take", WAS, WAS, WAS, WAS, WAS, WAS, 0, cases[i].refusal == WX_DONE ? 0 : 1, 0, WAS);
    }
}

/* A record of the old form, laid into the ring's place. */
static void lay_old(uint8_t *old_mem, size_t place, uint8_t number, const char *payload)
{
    uint8_t *record = old_mem + place * WX_OLD_RECORD;
    const size_t len = strlen(payload);
    memcpy(record, (const uint8_t[]){'U', 'R', number, (uint8_t)len}, 4);
    memcpy(record + 4, payload, len);
}

/* An old ring of three, whose oldest record lies in its last place: a notice, a RING, a notice of the table's last record; other bytes are o. */
static void lay_old_ring(uint8_t *old_mem, size_t len)
{
    memset(old_mem, 'o', len);
    lay_old(old_mem, 2, 0, "+UUSORD: 1");
    lay_old(old_mem, 0, WX_RING, "2");
    lay_old(old_mem, 1, 63, "+UUSORD: 3");
}

#define MEMORIES buf, sizeof buf, slot_mem, sizeof slot_mem, queue_mem, sizeof queue_mem, out
#define WITH_TABLE WX_VERBOSE, table, sizeof table - 1

/* A restart, as the header has it, with half a line in the buffer: the kept notices come out in order, and the program goes on. */
static void restart(void)
{
    static const uint8_t table[] = TABLE, rest[] = "RD: 4\r\n\r\nOK\r\n";
    static const uint64_t as_kept[WX_NUMBERS] = {7, 0, WX_CME, 10, 4, 9, 2, 3, 5, 8};
    static const struct {
        uint64_t number, place, len;
        const char *payload;
    } waiting[] = {{WX_RING, 1034, 1, "2"}, {63, 2063, 10, "+UUSORD: 3"}, {0, 3092, 10, "+UUSORD: 4"}};
    uint64_t kept[WX_NUMBERS], state[WX_NUMBERS], out[WX_OUT];
    uint8_t buf[64] = "\r\n+UUSO", slot_mem[16] = "0010", old_mem[3 * WX_OLD_RECORD + 7], as_read[sizeof old_mem];
    uint8_t queue_mem[4 * WX_RECORD + 9], expected[sizeof queue_mem];
    lay_old_ring(old_mem, sizeof old_mem);
    lay_old_ring(as_read, sizeof as_read);
    memset(queue_mem, 'n', sizeof queue_mem);
    memcpy(kept, as_kept, sizeof kept);

    memcpy(state, kept, sizeof state);
    same("a restart", wx_queue_convert(kept, old_mem, sizeof old_mem, state, queue_mem, sizeof queue_mem), WX_DONE);
    STATE("a restart", 7, 0, WX_CME, 10, 4, 9, 0, 3, 5, 8);
    memset(expected, 'n', sizeof expected);
    memcpy(expected, "UX\0\0\12+UUSORD: 1", 15);
    memcpy(expected + 1029, "UX\377\0\1" "2", 6);
    memcpy(expected + 2058, "UX\77\0\12+UUSORD: 3", 15);
    same_bytes("a restart, the new memory", queue_mem, (const char *)expected, sizeof queue_mem);
    same_bytes("a restart, the old memory", old_mem, (const char *)as_read, sizeof old_mem);
    same_all("a restart, the old numbers", kept, WX_NUMBERS, as_kept, WX_NUMBERS);

    reset_to_was(out, WX_OUT);
    same("a restart, a take", wx_queue_take(state, queue_mem, sizeof queue_mem, out), WX_DONE);
    OUT("a restart, a take", 1, 0, 5, 10, WAS, WAS, WAS, WAS, WAS);
    same_bytes("a restart, a take", queue_mem + out[2], "+UUSORD: 1", 10);
    same("a restart, a write", wx_ingress_write(state, rest, sizeof rest - 1, WITH_TABLE, MEMORIES), WX_DONE);
    same("a restart, a write, taken", out[0], sizeof rest - 1);
    STATE("a restart, a write", 0, 1, WX_OK, 0, 0, 9, 1, 3, 5, 8);
    for (size_t i = 0; i < sizeof waiting / sizeof waiting[0]; i++) {
        reset_to_was(out, WX_OUT);
        same("a restart, takes", wx_queue_take(state, queue_mem, sizeof queue_mem, out), WX_DONE);
        OUT("a restart, takes", 1, waiting[i].number, waiting[i].place, waiting[i].len, WAS, WAS, WAS, WAS, WAS);
        same_bytes("a restart, takes", queue_mem + out[2], waiting[i].payload, waiting[i].len);
    }
    STATE("a restart, all taken", 0, 1, WX_OK, 0, 0, 9, 0, 0, 5, 8);
}

/* Sixteen notices of 8 to 128 bytes from the ring's last place on, in an old memory that has room for one more, into a memory that has room for just so many. */
static void convert_sixteen(void)
{
    static uint8_t old_mem[17 * WX_OLD_RECORD], mem[WX_RECORDS * WX_RECORD], expected[sizeof mem];
    const uint64_t old[WX_NUMBERS] = {WAS, WAS, WAS, WAS, WAS, WAS, 15, 16, 0, WAS};
    uint64_t state[WX_NUMBERS];
    char payload[128 + 1];
    memset(old_mem, 'o', sizeof old_mem);
    memset(mem, 'n', sizeof mem);
    memset(expected, 'n', sizeof expected);
    for (size_t i = 0; i < WX_RECORDS; i++) {
        const uint8_t number = i == 15 ? WX_RING : (uint8_t)i, len = (uint8_t)(8 * (i + 1));
        memset(payload, 'a' + (int)i, len);
        payload[len] = 0;
        lay_old(old_mem, (15 + i) % 16, number, payload);
        memcpy(expected + i * WX_RECORD, (const uint8_t[]){'U', 'X', number, 0, len}, 5);
        memcpy(expected + i * WX_RECORD + 5, payload, len);
    }
    reset_to_was(state, WX_NUMBERS);
    same("sixteen, too little memory", wx_queue_convert(old, old_mem, sizeof old_mem, state, mem, sizeof mem - 1), WX_TOO_FEW);
    STATE("sixteen, too little memory", WAS, WAS, WAS, WAS, WAS, WAS, WAS, WAS, WAS, WAS);
    same("sixteen", wx_queue_convert(old, old_mem, sizeof old_mem, state, mem, sizeof mem), WX_DONE);
    STATE("sixteen", WAS, WAS, WAS, WAS, WAS, WAS, 0, 16, 0, WAS);
    same_bytes("sixteen, memory", mem, (const char *)expected, sizeof mem);
}

/* The lost count goes along, by what it reads; one that reads already as it is to read stays as it stood. */
static void convert_lost(void)
{
    static const uint64_t over = UINT64_C(4294967296);
    /* the old count, the one in the state, and what that becomes */
    const uint64_t cases[][3] = {
        {5, 0, 5},
        {0, 5, 0},
        {MOST, 5, MOST},
        {over, 5, MOST},
        {UINT64_MAX, MOST, MOST},
        {over, over, over},
        {MOST, over, over},
        {UINT64_MAX, over, over},
        {MOST - 1, over, MOST - 1},
    };
    for (size_t i = 0; i < sizeof cases / sizeof cases[0]; i++) {
        const uint64_t old[WX_NUMBERS] = {0, 0, 0, 0, 0, 0, 1, 1, cases[i][0], 0};
        uint64_t state[WX_NUMBERS];
        uint8_t old_mem[3 * WX_OLD_RECORD], mem[WX_RECORD];
        lay_old_ring(old_mem, sizeof old_mem);
        memset(mem, 'n', sizeof mem);
        reset_to_was(state, WX_NUMBERS);
        state[WX_QUEUE_LOST] = cases[i][1];
        /* what isn't the queue's stays, out of plain form too */
        state[WX_SERIAL] = over;
        same("the lost count", wx_queue_convert(old, old_mem, sizeof old_mem, state, mem, sizeof mem), WX_DONE);
        STATE("the lost count", WAS, WAS, WAS, WAS, WAS, WAS, 0, 1, cases[i][2], over);
        same_bytes("the lost count, memory", mem, "UX\77\0\12+UUSORD: 3nnn", 18);
    }
}

/* Which refusal a conversion gives, and that it changes nothing then; the old queue never changes. The old memory begins with the ring of three, of which one byte is
 * made another; 9 at byte 2, a table number, is no damage. */
static void convert_refusals(void)
{
    enum { THREE = 3 * WX_OLD_RECORD, SEVENTEEN = 17 * WX_OLD_RECORD };
    static const uint64_t over = UINT64_C(4294967296);
    const struct {
        uint64_t start, count;
        size_t old_len, len, place;
        uint8_t byte;
        uint32_t refusal;
    } cases[] = {
        /* none held: any memory is good, and no record is looked at */
        {0, 0, 0, 0, 0, 'u', WX_DONE},
        {0, 0, 131, 0, 0, 'u', WX_DONE},
        {2, 0, THREE, 0, 264, 'u', WX_DONE},
        {2, 0, THREE, 1028, 264, 'u', WX_DONE},
        /* the new memory, at its bounds */
        {2, 1, THREE, 0, 2, 9, WX_TOO_FEW},
        {2, 1, THREE, 132, 2, 9, WX_TOO_FEW},
        {2, 1, THREE, 1028, 2, 9, WX_TOO_FEW},
        {2, 1, THREE, 1029, 2, 9, WX_DONE},
        {2, 2, THREE, 2057, 2, 9, WX_TOO_FEW},
        {2, 2, THREE, 2058, 2, 9, WX_DONE},
        {2, 3, THREE, 3086, 2, 9, WX_TOO_FEW},
        {2, 3, THREE, 3087, 2, 9, WX_DONE},
        /* the last record that is held, also where the new memory is too short, and one that isn't held */
        {2, 2, THREE, 2058, 0, 'u', WX_BAD_STATE},
        {2, 2, THREE, 1029, 0, 'u', WX_BAD_STATE},
        {2, 2, THREE, 0, 0, 'u', WX_BAD_STATE},
        {2, 2, THREE, 2058, 1, 'X', WX_BAD_STATE},
        {2, 2, THREE, 2058, 3, 0, WX_BAD_STATE},
        {2, 2, THREE, 0, 3, 0, WX_BAD_STATE},
        {2, 2, THREE, 2058, 3, 129, WX_BAD_STATE},
        {2, 2, THREE, 2058, 3, 255, WX_BAD_STATE},
        {2, 2, THREE, 2058, 3, 128, WX_DONE},
        {2, 2, THREE, 2058, 132, 'u', WX_DONE},
        {2, 2, THREE, 2058, 135, 0, WX_DONE},
        {2, 2, THREE, 2057, 132, 'u', WX_TOO_FEW},
        {2, 3, THREE, 3087, 132, 'u', WX_BAD_STATE},
        {0, 2, THREE, 2058, 264, 'u', WX_DONE},
        {0, 2, THREE, 2058, 133, 'r', WX_BAD_STATE},
        /* start and count, by the old memory, and before 13 */
        {3, 0, THREE, 3087, 2, 9, WX_BAD_STATE},
        {3, 1, THREE, 0, 2, 9, WX_BAD_STATE},
        {over, 1, THREE, 3087, 2, 9, WX_BAD_STATE},
        {UINT64_MAX, 1, THREE, 3087, 2, 9, WX_BAD_STATE},
        {0, 4, THREE, 4116, 2, 9, WX_BAD_STATE},
        {0, 4, THREE, 3087, 2, 9, WX_BAD_STATE},
        {0, over, THREE, 3087, 2, 9, WX_BAD_STATE},
        {0, UINT64_MAX, THREE, 0, 2, 9, WX_BAD_STATE},
        {2, 1, THREE - 1, 3087, 2, 9, WX_BAD_STATE},
        {1, 3, THREE - 1, 3087, 2, 9, WX_BAD_STATE},
        {1, 2, THREE - 1, 2058, 2, 9, WX_DONE},
        {1, 0, 131, 1029, 2, 9, WX_BAD_STATE},
        {1, 0, 0, 1029, 2, 9, WX_BAD_STATE},
        {0, 1, 131, 1029, 2, 9, WX_BAD_STATE},
        {16, 0, SEVENTEEN, 0, 2, 9, WX_BAD_STATE},
        {15, 0, SEVENTEEN, 0, 2, 9, WX_DONE},
        {0, 17, SEVENTEEN, 17493, 2, 9, WX_BAD_STATE},
    };
    static uint8_t old_mem[SEVENTEEN], as_read[SEVENTEEN], mem[17 * WX_RECORD], untouched[sizeof mem];
    memset(untouched, 'n', sizeof untouched);
    for (size_t i = 0; i < sizeof cases / sizeof cases[0]; i++) {
        const uint64_t old[WX_NUMBERS] = {0, 1, 2, 3, 4, 5, cases[i].start, cases[i].count, 8, 9};
        uint64_t kept[WX_NUMBERS], state[WX_NUMBERS];
        char what[40];
        snprintf(what, sizeof what, "a conversion, case %zu", i);
        lay_old_ring(old_mem, sizeof old_mem);
        old_mem[cases[i].place] = cases[i].byte;
        memcpy(as_read, old_mem, sizeof old_mem);
        memset(mem, 'n', sizeof mem);
        memcpy(kept, old, sizeof kept);
        reset_to_was(state, WX_NUMBERS);
        same(what, wx_queue_convert(kept, old_mem, cases[i].old_len, state, mem, cases[i].len), cases[i].refusal);
        same_all(what, kept, WX_NUMBERS, old, WX_NUMBERS);
        same_bytes(what, old_mem, (const char *)as_read, sizeof old_mem);
        if (cases[i].refusal == WX_DONE) {
            STATE(what, WAS, WAS, WAS, WAS, WAS, WAS, 0, cases[i].count, 8, WAS);
            for (size_t k = 0; k < cases[i].count; k++)
                same_bytes(what, mem + k * WX_RECORD, "UX", 2);
            same_bytes(what, mem + cases[i].count * WX_RECORD, (const char *)untouched, sizeof mem - cases[i].count * WX_RECORD);
        } else {
            STATE(what, WAS, WAS, WAS, WAS, WAS, WAS, WAS, WAS, WAS, WAS);
            same_bytes(what, mem, (const char *)untouched, sizeof mem);
        }
    }
}

/* The conversion of a queue of the old form. */
static void convert(void)
{
    restart();
    convert_sixteen();
    convert_lost();
    convert_refusals();
}

static void ingress(void)
{
    static const uint8_t table[] = TABLE, answer[] = "AT+CSQ\r\r\n+CSQ: 17,99\r\n\r\nOK\r\n";
    static const uint8_t notices[] = "\r\n+UUSORD: 1\r\n\r\n+UUSORD: 2\r\n", faulty[] = "??";
    static uint8_t too_long[WX_LONGEST + 1];
    uint64_t state[WX_NUMBERS], out[WX_OUT];
    uint8_t buf[64] = {0}, slot_mem[32] = {0}, queue_mem[WX_RECORD] = {0};
    reset_to_was(state, WX_NUMBERS);
    wx_slot_new(state);
    wx_queue_new(state);
    wx_ingress_clear(state);
    STATE("a first state", 0, 0, WX_OK, 0, 0, 0, 0, 0, 0, 0);
    same("a first reset", wx_slot_reset(state, 7, slot_mem, sizeof slot_mem), WX_DONE);
    reset_to_was(out, WX_OUT);
    same("a write", wx_ingress_write(state, answer, sizeof answer - 1, WITH_TABLE, MEMORIES), WX_DONE);
    OUT("a write", sizeof answer - 1, WAS, WAS, WAS, WAS, WAS, WAS, WAS, WAS);
    STATE("a write", 0, 1, WX_OK, 0, 11, 0, 0, 0, 0, 7);
    same_bytes("a write, the slot's memory", slot_mem, "+CSQ: 17,99", 11);

    same("a full queue", wx_ingress_write(state, notices, sizeof notices - 1, WITH_TABLE, MEMORIES), WX_FULL);
    OUT("a full queue", sizeof notices - 1, WAS, WAS, WAS, WAS, WAS, WAS, WAS, WAS);
    STATE("a full queue", 14, 1, WX_OK, 0, 11, 0, 0, 1, 0, 7);
    same_bytes("a full queue, the buffer", buf, "\r\n+UUSORD: 2\r\n", 14);
    same("still full", wx_ingress_advance(state, 0, WITH_TABLE, MEMORIES), WX_FULL);
    same("the first notice", wx_queue_take(state, queue_mem, sizeof queue_mem, out), WX_DONE);
    OUT("the first notice", 1, 0, 5, 10, WAS, WAS, WAS, WAS, WAS);
    same_bytes("the first notice", queue_mem + 5, "+UUSORD: 1", 10);
    same("going on", wx_ingress_advance(state, 0, WITH_TABLE, MEMORIES), WX_DONE);
    STATE("going on", 0, 1, WX_OK, 0, 11, 0, 0, 1, 0, 7);
    same_bytes("the second notice", queue_mem + 5, "+UUSORD: 2", 10);

    memcpy(buf, "\r\nNO", 4);
    same("an advance", wx_ingress_advance(state, 4, WITH_TABLE, MEMORIES), WX_DONE);
    STATE("an advance", 4, 1, WX_OK, 0, 11, 0, 0, 1, 0, 7);
    reset_to_was(out, WX_OUT);
    same("a commit over the room", wx_ingress_advance(state, 61, WITH_TABLE, MEMORIES), WX_NO_ROOM);
    same("a buffer of 4,097 bytes",
         wx_ingress_write(state, answer, 1, WITH_TABLE, too_long, sizeof too_long, slot_mem, sizeof slot_mem, queue_mem, sizeof queue_mem, out),
         WX_TOO_LONG);
    OUT("refused", WAS, WAS, WAS, WAS, WAS, WAS, WAS, WAS, WAS);
    same("a faulty table", wx_ingress_write(state, answer, 1, WX_VERBOSE, faulty, 2, MEMORIES), WX_BAD_TABLE);
    OUT("a faulty table", 0, WAS, WAS, WAS, WAS, WAS, WAS, WAS, WAS);
    STATE("refused", 4, 1, WX_OK, 0, 11, 0, 0, 1, 0, 7);
    state[WX_END] = 65;
    same("an end past the buffer", wx_ingress_advance(state, 0, WITH_TABLE, MEMORIES), WX_BAD_STATE);
    wx_ingress_clear(state);
    STATE("a clear", 0, 1, WX_OK, 0, 11, 0, 0, 1, 0, 7);
}

/* The ingress hands the digits on to the slot. */
static void ingress_digits(void)
{
    static const struct {
        const char *piece;
        uint64_t kind, number, len;
        const char *mem;
    } cases[] = {
        {"\r\n+CME ERROR: 0010\r\n", WX_CME, 10, 4, "0010ef"},
        {"\r\n+CMS ERROR: 0000500\r\n", WX_CMS, 500, 0, "abcdef"},
        {"\r\nMODEM ERROR:007\n", WX_UNKNOWN, 0, 3, "007def"},
        {"\r\nMODEM ERROR: 0000007\n", WX_UNKNOWN, 0, 0, "abcdef"},
    };
    for (size_t i = 0; i < sizeof cases / sizeof cases[0]; i++) {
        const uint8_t *piece = (const uint8_t *)cases[i].piece;
        uint64_t state[WX_NUMBERS], out[WX_OUT];
        uint8_t buf[64], slot_mem[] = {'a', 'b', 'c', 'd', 'e', 'f'}, queue_mem[WX_RECORD];
        wx_slot_new(state);
        wx_queue_new(state);
        wx_ingress_clear(state);
        reset_to_was(out, WX_OUT);
        same("digits handed on", wx_ingress_write(state, piece, strlen(cases[i].piece), WX_VERBOSE, piece, 0, MEMORIES), WX_DONE);
        OUT("digits handed on", strlen(cases[i].piece), WAS, WAS, WAS, WAS, WAS, WAS, WAS, WAS);
        STATE("digits handed on", 0, 1, cases[i].kind, cases[i].number, cases[i].len, 0, 0, 0, 0, 0);
        same_bytes("digits handed on, the slot's memory", slot_mem, cases[i].mem, sizeof slot_mem);
    }
}

/* A longer CONNECT line frees a waiting client where the digester hears it, by an advance and by a write; its text goes nowhere. */
static void ingress_connect(void)
{
    static const struct {
        enum whose whose;
        const char *piece;
        uint64_t end, signalled, kind, len;
        const char *mem;
    } cases[] = {
        {CONNECT, "\r\nCONNECT 9600\r\n", 0, 1, WX_OK, 0, "abcdef"},
        {VERBOSE, "\r\nCONNECT 9600\r\n", 16, 0, WX_OK, 0, "abcdef"},
        {CONNECT, "\r\nERROR\r\n\r\nCONNECT 1\r\n", 0, 1, WX_OK, 5, "ERRORf"},
        {VERBOSE, "\r\nERROR\r\n\r\nCONNECT 1\r\n", 13, 1, WX_ERROR, 0, "abcdef"},
    };
    for (size_t i = 0; i < sizeof cases / sizeof cases[0]; i++)
        for (size_t n = 0; n < 2 * DIGESTERS; n++) {
            const uint32_t digester = digesters[n / 2];
            const uint8_t *piece = (const uint8_t *)cases[i].piece;
            const size_t len = strlen(cases[i].piece);
            uint64_t state[WX_NUMBERS], out[WX_OUT];
            uint8_t buf[64], slot_mem[] = {'a', 'b', 'c', 'd', 'e', 'f'}, queue_mem[WX_RECORD];
            if (!answers_so(cases[i].whose, digester))
                continue;
            wx_slot_new(state);
            wx_queue_new(state);
            wx_ingress_clear(state);
            reset_to_was(out, WX_OUT);
            if (n % 2 == 0) {
                same("CONNECT, a write", wx_ingress_write(state, piece, len, digester, piece, 0, MEMORIES), WX_DONE);
                OUT("CONNECT, a write", len, WAS, WAS, WAS, WAS, WAS, WAS, WAS, WAS);
            } else {
                memcpy(buf, piece, len);
                same("CONNECT, an advance", wx_ingress_advance(state, len, digester, piece, 0, MEMORIES), WX_DONE);
                OUT("CONNECT, an advance", WAS, WAS, WAS, WAS, WAS, WAS, WAS, WAS, WAS);
            }
            STATE("CONNECT", cases[i].end, cases[i].signalled, cases[i].kind, 0, cases[i].len, 0, 0, 0, 0, 0);
            same_bytes("CONNECT, the buffer", buf, cases[i].piece + len - cases[i].end, cases[i].end);
            same_bytes("CONNECT, the slot's memory", slot_mem, cases[i].mem, sizeof slot_mem);
        }
}

/* A table that isn't empty is refused with record 0 behind 1 and before 3 and 4; all stays as it stood. The state has 2 bytes in a buffer of 64. */
static void ingress_numeric_refusals(uint64_t state[WX_NUMBERS], uint8_t *buf, uint8_t *slot_mem, uint8_t *queue_mem)
{
    static const uint8_t table[] = TABLE, piece[] = "0\r";
    static uint8_t too_long[WX_LONGEST + 1];
    uint64_t out[WX_OUT];
#define LENT(buf, len) buf, len, slot_mem, 16, queue_mem, WX_RECORD, out
#define WITH_A_TABLE WX_NUMERIC, table, sizeof table - 1
    reset_to_was(out, WX_OUT);
    same("V0, a long buffer, write", wx_ingress_write(state, piece, 2, WITH_A_TABLE, LENT(too_long, sizeof too_long)), WX_TOO_LONG);
    same("V0, a long buffer, advance", wx_ingress_advance(state, 0, WITH_A_TABLE, LENT(too_long, sizeof too_long)), WX_TOO_LONG);
    OUT("V0, a long buffer", WAS, WAS, WAS, WAS, WAS, WAS, WAS, WAS, WAS);
    /* an end past the buffer, and a commit over the room, are met by refusal 2 where the table isn't empty, and by their own where it is */
    same("V0, a table, an end past the buffer", wx_ingress_write(state, piece, 2, WITH_A_TABLE, LENT(buf, 1)), WX_BAD_TABLE);
    OUT("V0, a table, an end past the buffer", 0, WAS, WAS, WAS, WAS, WAS, WAS, WAS, WAS);
    reset_to_was(out, WX_OUT);
    same("V0, a table, a commit over the room", wx_ingress_advance(state, 63, WITH_A_TABLE, LENT(buf, 64)), WX_BAD_TABLE);
    OUT("V0, a table, a commit over the room", 0, WAS, WAS, WAS, WAS, WAS, WAS, WAS, WAS);
    reset_to_was(out, WX_OUT);
    same("V0, an end past the buffer", wx_ingress_write(state, piece, 2, WX_NUMERIC, table, 0, LENT(buf, 1)), WX_BAD_STATE);
    same("V0, a commit over the room", wx_ingress_advance(state, 63, WX_NUMERIC, table, 0, LENT(buf, 64)), WX_NO_ROOM);
    OUT("V0, refused", WAS, WAS, WAS, WAS, WAS, WAS, WAS, WAS, WAS);
}

/* A RING meets a full queue, with an echo before it and an error behind it. */
static void ingress_numeric_full(uint64_t state[WX_NUMBERS], uint8_t *buf, uint8_t *slot_mem, uint8_t *queue_mem)
{
    static const uint8_t piece[] = "AT+X\r2\r4\r0";
    uint64_t out[WX_OUT];
#define EMPTY_TABLE WX_NUMERIC, piece, 0
    same("V0, a full queue", wx_ingress_write(state, piece, 10, EMPTY_TABLE, LENT(buf, 64)), WX_FULL);
    same("V0, a full queue, taken", out[0], 10);
    STATE("V0, a full queue", 10, 0, WX_OK, 0, 11, 0, 0, 1, 0, 1);
    same_bytes("V0, a full queue, the buffer", buf, "AT+X\r2\r4\r0", 10);
    same("V0, still full", wx_ingress_advance(state, 0, EMPTY_TABLE, LENT(buf, 64)), WX_FULL);
    reset_to_was(out, WX_OUT);
    same("V0, the first RING", wx_queue_take(state, queue_mem, WX_RECORD, out), WX_DONE);
    OUT("V0, the first RING", 1, WX_RING, 5, 1, WAS, WAS, WAS, WAS, WAS);
    same("V0, going on", wx_ingress_advance(state, 0, EMPTY_TABLE, LENT(buf, 64)), WX_DONE);
    STATE("V0, going on", 1, 1, WX_ERROR, 0, 0, 0, 0, 1, 0, 1);
    same_bytes("V0, going on, the buffer", buf, "0", 1);
}

/* A conversation with a modem in V0: an echo and an information answer, a RING in between, a full queue, an error. */
static void ingress_numeric(void)
{
    static const uint8_t first[] = "AT+CSQ\r+CSQ: 17", second[] = ",99\r\n0\r2\r";
    uint64_t state[WX_NUMBERS], out[WX_OUT];
    uint8_t buf[64] = {0}, slot_mem[16] = {0}, queue_mem[WX_RECORD] = {0};
    wx_slot_new(state);
    wx_queue_new(state);
    wx_ingress_clear(state);
    same("V0, half a line", wx_ingress_write(state, first, sizeof first - 1, WX_NUMERIC, first, 0, MEMORIES), WX_DONE);
    STATE("V0, half a line", 15, 0, WX_OK, 0, 0, 0, 0, 0, 0, 0);
    same("V0, an answer and RING", wx_ingress_write(state, second, sizeof second - 1, WX_NUMERIC, first, 0, MEMORIES), WX_DONE);
    same("V0, an answer and RING, taken", out[0], sizeof second - 1);
    STATE("V0, an answer and RING", 0, 1, WX_OK, 0, 11, 0, 0, 1, 0, 0);
    same("a reset", wx_slot_reset(state, 1, slot_mem, sizeof slot_mem), WX_DONE);
    ingress_numeric_full(state, buf, slot_mem, queue_mem);

    buf[1] = 'x';
    same("V0, a commit", wx_ingress_advance(state, 1, WX_NUMERIC, first, 0, MEMORIES), WX_DONE);
    ingress_numeric_refusals(state, buf, slot_mem, queue_mem);
    STATE("V0, refused", 2, 1, WX_ERROR, 0, 0, 0, 0, 1, 0, 1);
    same_bytes("V0, the buffer", buf, "0x", 2);
    same_bytes("V0, the slot's memory", slot_mem, "+CSQ: 17,99", 11);
    same_bytes("V0, the queue's memory", queue_mem, "UX\377\0\1" "2", 6);
}

/* What the header says of a cut between a CR and its LF. */
static void cut_numeric(void)
{
    static const struct {
        const char *first, *second;
        uint64_t end, signalled, len;
    } cases[] = {
        {"0\r\n", "", 3, 0, 0},
        {"0\r", "\n", 1, 1, 0},
        {"0\r\n0\r", "", 0, 1, 1},
        {"0\r", "\n0\r", 3, 1, 0},
        /* in any other line it changes nothing, nor does another cut */
        {"+CSQ: 1\r", "\n0\r", 0, 1, 7},
        {"5\r", "\n0\r", 0, 1, 1},
        {"+CSQ: 1\r\n0", "\r", 0, 1, 7},
    };
    for (size_t i = 0; i < sizeof cases / sizeof cases[0]; i++) {
        const uint8_t *first = (const uint8_t *)cases[i].first, *second = (const uint8_t *)cases[i].second;
        uint64_t state[WX_NUMBERS], out[WX_OUT];
        uint8_t buf[64], slot_mem[64], queue_mem[WX_RECORD];
        wx_slot_new(state);
        wx_queue_new(state);
        wx_ingress_clear(state);
        same("V0, before the cut", wx_ingress_write(state, first, strlen(cases[i].first), WX_NUMERIC, first, 0, MEMORIES), WX_DONE);
        same("V0, behind it", wx_ingress_write(state, second, strlen(cases[i].second), WX_NUMERIC, first, 0, MEMORIES), WX_DONE);
        STATE("V0, a cut", cases[i].end, cases[i].signalled, WX_OK, 0, cases[i].len, 0, 0, 0, 0, 0);
    }
}

/* What the header says of a cut: the same bytes, whole and cut behind the @. */
static void cut(void)
{
    static const uint8_t answer[] = "AT+CGDCONT?\r\r\n+CGDCONT: 1,\"IP\",\"me@apn\"\r\n\r\nOK\r\n";
    const size_t len = sizeof answer - 1, at = (size_t)((const uint8_t *)memchr(answer, '@', len) - answer) + 1;
    uint64_t state[WX_NUMBERS], out[WX_OUT];
    uint8_t buf[64], slot_mem[64], queue_mem[WX_RECORD];
    wx_slot_new(state);
    wx_queue_new(state);
    wx_ingress_clear(state);
#define WRITE(what, piece, n) same(what, wx_ingress_write(state, piece, n, WX_VERBOSE, (const uint8_t *)"", 0, MEMORIES), WX_DONE)
    WRITE("a whole answer", answer, len);
    STATE("a whole answer", 0, 1, WX_OK, 0, 25, 0, 0, 0, 0, 0);
    same_bytes("a whole answer", slot_mem, "+CGDCONT: 1,\"IP\",\"me@apn\"", 25);
    same("a reset", wx_slot_reset(state, 1, slot_mem, sizeof slot_mem), WX_DONE);
    WRITE("cut behind the @", answer, at);
    STATE("cut behind the @", 0, 1, WX_PROMPT, '@', 0, 0, 0, 0, 0, 1);
    same("a reset", wx_slot_reset(state, 2, slot_mem, sizeof slot_mem), WX_DONE);
    WRITE("behind the cut", answer + at, len - at);
    STATE("behind the cut", 0, 1, WX_OK, 0, 0, 0, 0, 0, 0, 2);
}

static uint32_t look(const uint64_t state[WX_NUMBERS], const uint8_t *mem, size_t mem_len, uint64_t out[WX_OUT])
{
    reset_to_was(out, WX_OUT);
    return wx_slot_lookup(state, mem, mem_len, out);
}

/* What the header says of late answers: one that arrives behind the next reset bears its number, one that arrives before is freed with it. */
static void late(void)
{
    static const uint8_t first[] = "AT+CSQ\r\r\n+CSQ: 17,99\r\n\r\nOK\r\n", second[] = "AT\r\r\nOK\r\n";
    uint64_t state[WX_NUMBERS], out[WX_OUT];
    uint8_t buf[64], slot_mem[16], queue_mem[WX_RECORD];
    wx_slot_new(state);
    wx_queue_new(state);
    wx_ingress_clear(state);
#define NEXT(what, serial, refusal) same(what, wx_slot_reset(state, serial, slot_mem, sizeof slot_mem), refusal)
#define LOOK(what) same(what, look(state, slot_mem, sizeof slot_mem, out), WX_DONE)
    NEXT("command 1", 1, WX_DONE);
    NEXT("command 2", 2, WX_DONE);
    WRITE("the late answer of command 1", first, sizeof first - 1);
    LOOK("the late answer of command 1");
    OUT("the late answer of command 1", 1, WX_OK, 0, 11, 2, WAS, WAS, WAS, WAS);
    WRITE("the answer of command 2", second, sizeof second - 1);
    STATE("the answer of command 2", 0, 1, WX_OK, 0, 11, 1, 0, 0, 0, 2);
    NEXT("a second reset for command 2", 2, WX_REPEATED);
    LOOK("a second reset for command 2");
    OUT("a second reset for command 2", 1, WX_OK, 0, 11, 2, WAS, WAS, WAS, WAS);

    NEXT("command 3", (uint32_t)(state[WX_SERIAL] + 1), WX_DONE);
    WRITE("the late answer of command 3", first, sizeof first - 1);
    LOOK("the late answer of command 3");
    OUT("the late answer of command 3", 1, WX_OK, 0, 11, 3, WAS, WAS, WAS, WAS);
    NEXT("command 4", (uint32_t)(state[WX_SERIAL] + 1), WX_DONE);
    LOOK("before the answer of command 4");
    OUT("before the answer of command 4", 0, WAS, WAS, WAS, WAS, WAS, WAS, WAS, WAS);
    WRITE("the answer of command 4", second, sizeof second - 1);
    LOOK("the answer of command 4");
    OUT("the answer of command 4", 1, WX_OK, 0, 0, 4, WAS, WAS, WAS, WAS);
    STATE("the answer of command 4", 0, 1, WX_OK, 0, 0, 1, 0, 0, 0, 4);

    /* the last number and the one after it */
    NEXT("command 4,294,967,295", MOST, WX_DONE);
    NEXT("command 0", (uint32_t)(state[WX_SERIAL] + 1), WX_DONE);
    STATE("command 0", 0, 0, WX_OK, 0, 0, 1, 0, 0, 0, 0);
}

/* The calls that aren't the slot's leave a serial number as it stood, out of plain form too. */
static void serial_stays(void)
{
    static const uint64_t numbers[] = {7, MOST, UINT64_C(4294967296), UINT64_MAX};
    static const uint8_t table[] = TABLE, notices[] = "\r\n+UUSORD: 1\r\n\r\n+UUSORD: 2\r\n\r\nOK\r\n";
    for (size_t i = 0; i < sizeof numbers / sizeof numbers[0]; i++) {
        const uint64_t serial = numbers[i];
        uint64_t state[WX_NUMBERS], out[WX_OUT];
        uint8_t buf[64] = {0}, slot_mem[16] = {0}, queue_mem[WX_RECORD] = {0};
        wx_slot_new(state);
        state[WX_SERIAL] = serial;
        wx_queue_new(state);
        wx_ingress_clear(state);
        STATE("the number stays, a new queue", 0, 0, WX_OK, 0, 0, 0, 0, 0, 0, serial);
        same("the number stays, a write", wx_ingress_write(state, notices, sizeof notices - 1, WITH_TABLE, MEMORIES), WX_FULL);
        STATE("the number stays, a write", 20, 0, WX_OK, 0, 0, 0, 0, 1, 0, serial);
        same("the number stays, a take", wx_queue_take(state, queue_mem, sizeof queue_mem, out), WX_DONE);
        STATE("the number stays, a take", 20, 0, WX_OK, 0, 0, 0, 0, 0, 0, serial);
        same("the number stays, an advance", wx_ingress_advance(state, 0, WITH_TABLE, MEMORIES), WX_DONE);
        STATE("the number stays, an advance", 0, 1, WX_OK, 0, 0, 0, 0, 1, 0, serial);
        same("the number stays, a put", wx_queue_put(state, queue_mem, sizeof queue_mem, 0, notices, 0), WX_DONE);
        same("the number stays, half a line", wx_ingress_write(state, notices, 5, WITH_TABLE, MEMORIES), WX_DONE);
        STATE("the number stays, a put", 5, 1, WX_OK, 0, 0, 0, 0, 1, 1, serial);
        wx_ingress_clear(state);
        STATE("the number stays, a clear", 0, 1, WX_OK, 0, 0, 0, 0, 1, 1, serial);
    }
}

/* The findings of bytes, by hand from R-14. Each case but the first ends in a byte that begins no text, behind which the table is in its first state, 0. */
static void findings(void)
{
    static const struct {
        const char *held;
        uint64_t expected[WX_FINDINGS];
    } cases[] = {
        {"", {0, 0, 0, 0, 0, 0, 0, 0, 0, 0, 0, 0, 0, 0, 0, 0}},
        {"x", {1, 0, 0, 0, 0, 0, 0, 0, 0, 0, 0, 0, 0, 0, 1, 0}},
        {" \t\n\f", {4, 0, 0, 0, 0, 0, 0, 0, 0, 0, 0, 0, 0, 0, 4, 3}},
        {"AT\r\r\n+CSQ: 17,99\r\nx ", {20, 0, 0, 0, 0, 0, 0, 0, 0, 0, 0, 0, 0, 0, 19, 18}},
        /* texts that lack something, and a longer CONNECT line, which is none of the eleven */
        {"OK\r\nOK \r\nok\r\nERROR\r +CME ERROR:\r\nCONNECT 1\r\nNA\n-", {48, 0, 0, 0, 0, 0, 0, 0, 0, 0, 0, 0, 0, 0, 48, 47}},
        /* a CRLF that two lines share */
        {"\r\nOK\r\nNA\r\nERROR\r\n-", {18, 0, 6, 0, 17, 0, 0, 0, 0, 0, 0, 0, 0, 10, 18, 17}},
        /* each of them, and some a second time */
        {"\r\nOK\r\n" "\r\nCONNECT\r\n" "\r\nERROR\r\n" "\r\nCOMMAND NOT SUPPORT\r\n" "\r\nNO CARRIER\r\n" "\r\nBUSY\r\n" "\r\nNO ANSWER\r\n" "\r\nNO DIALTONE\r\n"
         "\r\n+CME ERROR:" "\r\n+CMS ERROR:" "\r\nMODEM ERROR:" "\r\nNA\r\n" "\r\nOK\r\n" "\r\n+CME ERROR:" "\r\nNA\r\n" " x\t",
         {173, 0, 6, 17, 26, 49, 63, 71, 84, 99, 112, 125, 139, 145, 172, 170}},
    };
    for (size_t i = 0; i < sizeof cases / sizeof cases[0]; i++)
        for (int past = 0; past < 2; past++) {
            const uint8_t *held = (const uint8_t *)cases[i].held;
            const size_t len = strlen(cases[i].held);
            /* one number more than is lent, on both sides */
            uint64_t state[WX_NUMBERS], around[WX_FINDINGS + 2];
            char what[30];
            snprintf(what, sizeof what, "findings, case %zu", i);
            reset_to_was(state, WX_NUMBERS);
            reset_to_was(around, WX_FINDINGS + 2);
            state[WX_END] = past ? UINT64_MAX : len;
            wx_findings_start(around + 1, state, held, past ? len : len + 1);
            same_all(what, around + 1, WX_FINDINGS, cases[i].expected, WX_FINDINGS);
            same(what, around[0], WAS);
            same(what, around[WX_FINDINGS + 1], WAS);
        }
}

/* A state, findings and memories, with numbers and bytes around each that no call may touch. */
enum { BUF = 64, SLOT = 16, AROUND = 8 };
struct world {
    uint64_t state[WX_NUMBERS + 2], findings[WX_FINDINGS + 2], out[WX_OUT + 2];
    uint8_t buf[BUF + 2 * AROUND], slot_mem[SLOT + 2 * AROUND], queue_mem[WX_RECORD + 2 * AROUND];
};

#define IN(world) (world).buf + AROUND, BUF, (world).slot_mem + AROUND, SLOT, (world).queue_mem + AROUND, WX_RECORD, (world).out + 1

/* With nothing in the buffer. */
static void clear_world(struct world *w)
{
    wx_ingress_clear(w->state + 1);
    memset(w->findings + 1, 0, WX_FINDINGS * sizeof w->findings[0]);
}

static void new_world(struct world *w)
{
    memset(w, WAS, sizeof *w);
    wx_slot_new(w->state + 1);
    wx_queue_new(w->state + 1);
    clear_world(w);
}

static void start_findings(struct world *w)
{
    wx_findings_start(w->findings + 1, w->state + 1, w->buf + AROUND, BUF);
}

/* The same stream through the calls without findings and through those with them. */
struct twins {
    struct world plain, fed;
    char name[150];
    uint32_t digester;
    const uint8_t *table;
    size_t table_len, lent_len;
    unsigned calls, full, cleared;
};

#define UNDER(t) (t)->digester, (t)->table, (t)->lent_len

/* Both worlds are the same to the byte, but for the findings: those are of what is in the buffer, as if made anew. */
static void same_worlds(const struct twins *t)
{
    struct world expected;
    memcpy(&expected, &t->plain, sizeof expected);
    start_findings(&expected);
    same(t->name, memcmp(&t->fed, &expected, sizeof expected) != 0, 0);
}

static uint32_t both_write(struct twins *t, const uint8_t *piece, size_t n)
{
    const uint32_t refusal = wx_ingress_write(t->plain.state + 1, piece, n, UNDER(t), IN(t->plain));
    same(t->name, wx_feed_write(t->fed.state + 1, t->fed.findings + 1, piece, n, UNDER(t), IN(t->fed)), refusal);
    same_worlds(t);
    return refusal;
}

static uint32_t both_advance(struct twins *t, size_t commit)
{
    const uint32_t refusal = wx_ingress_advance(t->plain.state + 1, commit, UNDER(t), IN(t->plain));
    same(t->name, wx_feed_advance(t->fed.state + 1, t->fed.findings + 1, commit, UNDER(t), IN(t->fed)), refusal);
    same_worlds(t);
    return refusal;
}

/* A plain write in both worlds; behind it the findings are made anew. */
static uint32_t both_plainly(struct twins *t, const uint8_t *piece, size_t n)
{
    const uint32_t refusal = wx_ingress_write(t->plain.state + 1, piece, n, UNDER(t), IN(t->plain));
    same(t->name, wx_ingress_write(t->fed.state + 1, piece, n, UNDER(t), IN(t->fed)), refusal);
    start_findings(&t->fed);
    same_worlds(t);
    return refusal;
}

/* How bytes are handed over: by writes, by advances, or by the three in turn, each time with another digester, and each fifth without the table. */
enum way { BY_WRITE, BY_ADVANCE, PLAINLY, IN_TURN };

/* Hands over as much of a piece as fits: how many bytes were taken. */
static size_t both_take(struct twins *t, enum way way, const uint8_t *piece, size_t n, uint32_t *refusal)
{
    const uint64_t end = t->plain.state[1 + WX_END];
    const size_t fits = n < BUF - end ? n : BUF - end;
    if (way == BY_ADVANCE) {
        memcpy(t->plain.buf + AROUND + end, piece, fits);
        memcpy(t->fed.buf + AROUND + end, piece, fits);
        *refusal = both_advance(t, fits);
        return fits;
    }
    *refusal = way == BY_WRITE ? both_write(t, piece, n) : both_plainly(t, piece, n);
    return t->plain.out[1];
}

/* A piece, all of it, as the header says; where the table is refused, nothing. Every third time an answer is left in the slot, so that the next is lost. */
static void hand_over(struct twins *t, enum way way, const uint8_t *piece, size_t n)
{
    while (n > 0) {
        const unsigned call = t->calls++;
        uint32_t refusal;
        t->lent_len = t->table_len;
        if (way == IN_TURN) {
            t->digester = call % 2 == 0 ? WX_VERBOSE : WX_CONNECT;
            t->lent_len = call % 5 == 0 ? 0 : t->table_len;
        }
        const size_t taken = both_take(t, way == IN_TURN ? (enum way)(call % 3) : way, piece, n, &refusal);
        while (refusal == WX_FULL) {
            t->full++;
            same(t->name, wx_queue_take(t->plain.state + 1, t->plain.queue_mem + AROUND, WX_RECORD, t->plain.out + 1), WX_DONE);
            same(t->name, wx_queue_take(t->fed.state + 1, t->fed.queue_mem + AROUND, WX_RECORD, t->fed.out + 1), WX_DONE);
            refusal = both_advance(t, 0);
        }
        if (refusal != WX_DONE)
            return;
        piece += taken;
        n -= taken;
        if (t->plain.state[1 + WX_SIGNALLED] != 0 && call % 3 != 0) {
            const uint32_t serial = (uint32_t)(t->plain.state[1 + WX_SERIAL] + 1);
            same(t->name, wx_slot_reset(t->plain.state + 1, serial, t->plain.slot_mem + AROUND, SLOT), WX_DONE);
            same(t->name, wx_slot_reset(t->fed.state + 1, serial, t->fed.slot_mem + AROUND, SLOT), WX_DONE);
        }
        if (taken == 0 && both_advance(t, 0) == WX_DONE && t->plain.state[1 + WX_END] == BUF) {
            t->cleared++;
            clear_world(&t->plain);
            clear_world(&t->fed);
        }
    }
}

static const char *const streams[] = {
    "AT+CSQ\r\r\n+CSQ: 17,99\r\n\r\nOK\r\n\r\nERROR\r\n\r\nOK\r\nAT\r\r\nOK\r\n",
    "AT+CPBR=1,9\r\r\n+CPBR: 1,\"1\"\r\n+CPBR: 2,\"22\"\r\n+CPBR: 3,\"333\"\r\n\r\nOK\r\n",
    "\r\n+CPBR: 1,\"1\"\r\n+CPBR: 2,\"22\"\r\n+CPBR: 3,\"333\"\r\n+CPBR: 4,\"4444\"\r\n+CPBR: 5,\"5\"\r\n\r\nOK\r\n",
    "\r\nCOMMAND NOT SUPPORT\r\n\r\nNO CARRIER\r\n\r\nBUSY\r\n\r\nNO ANSWER\r\n\r\nNO DIALTONE\r\n\r\nNOT\r\n",
    "x\r\n+CME ERROR: 0010\r\n\r\n+CME ERROR: 65536\r\n\r\n+CME ERROR:\r\n \t7\n\r\nOK\r\n",
    "\r\n+CMS ERROR:\t500\n\r\n+CMS ERROR\r\n+CMS ERROR: 00000000000000007\r\n\r\nMODEM ERROR:007\n\r\nMODEM ERROR: x\r\n",
    "x\r\n\r\nNA\r\n\r\nNAN\r\nNA\r\n\r\nNA\r\nNA \r\n",
    "\r\n> \r\n@\r\n a > b\r\n<c>\r\n>\r\n\r\nSEND:\r\n \r\nSEND:x\r\n>>\r\n",
    "\r\n+UUSORD: 1\r\n\r\n+UUSORD: 2\r\n\r\n+UUSORD: 3\r\nRING\r\n+UUSORD\r\n+UUSORD:\r\n+UUSOR\r\n\r\nOK\r\n",
    "\r\nRING\r\n\r\nSHUT OK\r\n\r\nRING\r\nSIM BUSY\r\n\r\nOK\r\nSHUT OK\r\n",
    "ATD1\r\r\nCONNECT 9600\r\n\r\nCONNECT\r\n\r\nCONNECT \r\nCONNECT\t1\r\n\r\nOK\r\n",
    "   \t \r\n\r\n\r\n  \r \n OK\r\n\r\r\nOK\r\n\n\nOK\r\n",
    "abcdefghijklmnopqrstuvwxyz abcdefghijklmnopqrstuvwxyz abcdefghijklmnopqrstuvwxyz\r\nOK\r\n",
    "AT+CSQ\r+CSQ: 17,99\r\n0\r2\r2\rATD1\r7\r0\r\n2\r5\r4\r1\r",
};

/* A stream, in a first piece and then in pieces of `size` bytes. */
static void both_hear(struct twins *t, enum way way, size_t stream, size_t first, size_t size)
{
    const uint8_t *rest = (const uint8_t *)streams[stream];
    snprintf(t->name, sizeof t->name, "stream %zu, digester %u, table of %zu bytes, way %d, a piece of %zu bytes, then of %zu", stream,
             (unsigned)t->digester, t->table_len, (int)way, first, size);
    new_world(&t->plain);
    new_world(&t->fed);
    for (size_t left = strlen(streams[stream]), n = first; left > 0; left -= n, rest += n, n = size) {
        if (n > left)
            n = left;
        hand_over(t, way, rest, n);
    }
}

/* Streams byte by byte, in short pieces, and in two with the cut everywhere. */
static void feed(void)
{
    static const struct {
        const char *bytes;
        size_t len;
    } tables[] = {{"", 0}, {"UR\7+UUSORD" "CS\7SHUT OK" "CE\10SIM BUSY" "CP$\5SEND:", 40}, {"CP$\5SEND:", 9}};
    static const uint32_t all[] = {WX_VERBOSE, WX_CONNECT, WX_NUMERIC};
    static struct twins t;
    for (size_t i = 0; i < sizeof streams / sizeof streams[0]; i++)
        for (size_t k = 0; k < 3 * sizeof tables / sizeof tables[0]; k++)
            for (enum way way = BY_WRITE; way <= IN_TURN; way++) {
                t.table = (const uint8_t *)tables[k / 3].bytes;
                t.table_len = tables[k / 3].len;
                t.digester = all[k % 3];
                const size_t len = strlen(streams[i]);
                for (size_t size = 1; size <= 5; size++)
                    both_hear(&t, way, i, size, size);
                for (size_t cut = 1; cut <= len; cut++)
                    both_hear(&t, way, i, cut, len);
            }
    same("a full queue was met", t.full > 100, 1);
    same("a full buffer was met", t.cleared > 100, 1);
}

/* Everything is as it was, to the byte. */
static void stays(const char *what, const struct world *w, const struct world *was)
{
    same(what, memcmp(w, was, sizeof *w) != 0, 0);
}

/* Which refusal a call with findings gives; 1 to 4 leave the findings with all else. */
static void feed_refusals(void)
{
    static const uint64_t others[] = {0, 3, 5, 64, UINT64_C(4294967300), UINT64_MAX};
    static const uint8_t table[] = TABLE, faulty[] = "UR\4RINGUR\1 ", piece[] = "A";
    static uint8_t too_long[WX_LONGEST + 1];
    struct world w, was;
    new_world(&w);
#define FED w.state + 1, w.findings + 1
#define TOO_LONG too_long, sizeof too_long, w.slot_mem + AROUND, SLOT, w.queue_mem + AROUND, WX_RECORD, w.out + 1
    same("half a line", wx_feed_write(FED, (const uint8_t *)"\r\nNO", 4, WITH_TABLE, IN(w)), WX_DONE);
    same("half a line, taken", w.out[1], 4);
    /* findings of another length: behind 1 and 2, before 4, and where there is nothing to take too */
    for (size_t i = 0; i < sizeof others / sizeof others[0]; i++) {
        w.findings[1] = others[i];
        memset(w.out + 1, WAS, WX_OUT * sizeof w.out[0]);
        memcpy(&was, &w, sizeof was);
        same("other findings, a write", wx_feed_write(FED, piece, 1, WITH_TABLE, IN(w)), WX_BAD_STATE);
        same("other findings, an empty piece", wx_feed_write(FED, piece, 0, WITH_TABLE, IN(w)), WX_BAD_STATE);
        same("other findings, an advance", wx_feed_advance(FED, 1, WITH_TABLE, IN(w)), WX_BAD_STATE);
        same("other findings, a commit of 0", wx_feed_advance(FED, 0, WITH_TABLE, IN(w)), WX_BAD_STATE);
        same("other findings, a commit over the room", wx_feed_advance(FED, BUF - 3, WITH_TABLE, IN(w)), WX_BAD_STATE);
        same("other findings, V0", wx_feed_write(FED, piece, 1, WX_NUMERIC, table, 0, IN(w)), WX_BAD_STATE);
        same("other findings, a long buffer", wx_feed_write(FED, piece, 1, WITH_TABLE, TOO_LONG), WX_TOO_LONG);
        stays("other findings", &w, &was);
        was.out[1] = 1;
        same("other findings, a faulty table", wx_feed_write(FED, piece, 1, WX_VERBOSE, faulty, sizeof faulty - 1, IN(w)), WX_BAD_TABLE);
        stays("other findings, a faulty table", &w, &was);
        was.out[1] = 0;
        same("other findings, V0, a table", wx_feed_advance(FED, 0, WX_NUMERIC, table, sizeof table - 1, IN(w)), WX_BAD_TABLE);
        stays("other findings, V0, a table", &w, &was);
    }
    /* the other refusals, with the findings of what is there */
    static const struct {
        int number;
        uint64_t value;
    } wrong[] = {{WX_END, BUF + 1}, {WX_LEN, SLOT + 1}, {WX_START, 1}, {WX_COUNT, 2}};
    w.findings[1] = 4;
    memcpy(&was, &w, sizeof was);
    same("a commit over the room", wx_feed_advance(FED, BUF - 3, WITH_TABLE, IN(w)), WX_NO_ROOM);
    same("a long buffer, an advance", wx_feed_advance(FED, 0, WITH_TABLE, TOO_LONG), WX_TOO_LONG);
    stays("refused", &w, &was);
    for (size_t i = 0; i < sizeof wrong / sizeof wrong[0]; i++) {
        w.state[1 + wrong[i].number] = wrong[i].value;
        w.findings[1] = w.state[1 + WX_END];
        struct world damaged;
        memcpy(&damaged, &w, sizeof damaged);
        same("a wrong number, a write", wx_feed_write(FED, piece, 1, WITH_TABLE, IN(w)), WX_BAD_STATE);
        same("a wrong number, a commit over the room", wx_feed_advance(FED, BUF, WITH_TABLE, IN(w)), WX_BAD_STATE);
        stays("a wrong number", &w, &damaged);
        memcpy(&w, &was, sizeof was);
    }
    /* and it goes on */
    same("an empty piece", wx_feed_write(FED, piece, 0, WITH_TABLE, IN(w)), WX_DONE);
    same("the rest of the line", wx_feed_write(FED, (const uint8_t *)" CARRIER\r\n", 10, WITH_TABLE, IN(w)), WX_DONE);
    const uint64_t *state = w.state + 1;
    STATE("the rest of the line", 0, 1, WX_NO_CARRIER, 0, 0, 0, 0, 0, 0, 0);
}

/* The deepest retry through a write with findings, which digests all under a table. */
static void feed_deepest(void)
{
    static const uint8_t table[] = TABLE;
    static uint8_t crlfs[WX_LONGEST], buf[WX_LONGEST], slot_mem[16], queue_mem[WX_RECORD];
    uint64_t state[WX_NUMBERS], findings[WX_FINDINGS] = {0}, out[WX_OUT];
    for (size_t i = 0; i < WX_LONGEST; i++)
        crlfs[i] = i % 2 == 0 ? '\r' : '\n';
    wx_slot_new(state);
    wx_queue_new(state);
    wx_ingress_clear(state);
    same("2,048 CRLFs, a write with findings", wx_feed_write(state, findings, crlfs, WX_LONGEST, WITH_TABLE, MEMORIES), WX_DONE);
    STATE("2,048 CRLFs, a write with findings", WX_LONGEST, 0, WX_OK, 0, 0, 0, 0, 0, 0, 0);
}

/* Reads a parameter list into memory that has one number more than is lent. Of out the first number changes, of the memory what the elements take, and nothing else.
 * told: out[0]; expected: the elements' numbers; refused, there are none. */
static void read_list(const uint8_t *payload, size_t n, uint32_t refusal, uint64_t told, const uint64_t *expected)
{
    static uint64_t elements[WX_ELEMENTS * WX_ELEMENT + 1];
    const size_t numbers = sizeof elements / sizeof elements[0], written = refusal == WX_DONE ? told * WX_ELEMENT : 0;
    uint64_t out[WX_OUT];
    char what[100];
    snprintf(what, sizeof what, "a list of %zu bytes, %.40s", n, (const char *)payload);
    reset_to_was(out, WX_OUT);
    reset_to_was(elements, numbers);
    same(what, wx_list_read(payload, n, elements, out), refusal);
    OUT(what, told, WAS, WAS, WAS, WAS, WAS, WAS, WAS, WAS);
    same_all(what, elements, written, expected, written);
    strcat(what, ", the rest of the memory");
    for (size_t i = written; i < numbers; i++)
        same(what, elements[i], WAS);
}

static void lists(void)
{
    /* place, end, kind, depth, low, high */
    static const struct {
        const char *payload;
        uint64_t count, elements[8][WX_ELEMENT];
    } cases[] = {
        {" (0-31,99),(0-7,99)",
         6,
         {{1, 10, WX_KIND_LIST, 0, 0, 0},
          {2, 6, WX_KIND_RANGE, 1, 0, 31},
          {7, 9, WX_KIND_NUMBER, 1, 99, 99},
          {11, 19, WX_KIND_LIST, 0, 0, 0},
          {12, 15, WX_KIND_RANGE, 1, 0, 7},
          {16, 18, WX_KIND_NUMBER, 1, 99, 99}}},
        {"((((1))))",
         5,
         {{0, 9, WX_KIND_LIST, 0, 0, 0},
          {1, 8, WX_KIND_LIST, 1, 0, 0},
          {2, 7, WX_KIND_LIST, 2, 0, 0},
          {3, 6, WX_KIND_LIST, 3, 0, 0},
          {4, 5, WX_KIND_NUMBER, 4, 1, 1}}},
        /* empty places: the whole payload, behind spaces, within brackets, before a comma, at the end */
        {"", 1, {{0, 0, WX_KIND_EMPTY, 0, 0, 0}}},
        {"  ", 1, {{2, 2, WX_KIND_EMPTY, 0, 0, 0}}},
        {"()", 2, {{0, 2, WX_KIND_LIST, 0, 0, 0}, {1, 1, WX_KIND_EMPTY, 1, 0, 0}}},
        {"1,, ,",
         4,
         {{0, 1, WX_KIND_NUMBER, 0, 1, 1}, {2, 2, WX_KIND_EMPTY, 0, 0, 0}, {4, 4, WX_KIND_EMPTY, 0, 0, 0}, {5, 5, WX_KIND_EMPTY, 0, 0, 0}}},
        {"( )", 2, {{0, 3, WX_KIND_LIST, 0, 0, 0}, {2, 2, WX_KIND_EMPTY, 1, 0, 0}}},
        /* numbers, at their limit too, and ranges, of which the second may be the lower */
        {"0", 1, {{0, 1, WX_KIND_NUMBER, 0, 0, 0}}},
        {"4294967295", 1, {{0, 10, WX_KIND_NUMBER, 0, MOST, MOST}}},
        {"0004294967295", 1, {{0, 13, WX_KIND_NUMBER, 0, MOST, MOST}}},
        {"2-1", 1, {{0, 3, WX_KIND_RANGE, 0, 2, 1}}},
        {"007-04294967295", 1, {{0, 15, WX_KIND_RANGE, 0, 7, MOST}}},
        /* strings: none of the grammar's signs ends one but the quote, and an escaped quote isn't one */
        {"\"\"", 1, {{0, 2, WX_KIND_STRING, 0, 0, 0}}},
        {"(\"(,) -\", \"a\\22\\5c\")",
         3,
         {{0, 20, WX_KIND_LIST, 0, 0, 0}, {1, 8, WX_KIND_STRING, 1, 0, 0}, {10, 19, WX_KIND_STRING, 1, 0, 0}}},
        {"(2,\"T-Mobile\",,\"26201\",7)",
         6,
         {{0, 25, WX_KIND_LIST, 0, 0, 0},
          {1, 2, WX_KIND_NUMBER, 1, 2, 2},
          {3, 13, WX_KIND_STRING, 1, 0, 0},
          {14, 14, WX_KIND_EMPTY, 1, 0, 0},
          {15, 22, WX_KIND_STRING, 1, 0, 0},
          {23, 24, WX_KIND_NUMBER, 1, 7, 7}}},
    };
    for (size_t i = 0; i < sizeof cases / sizeof cases[0]; i++)
        read_list((const uint8_t *)cases[i].payload, strlen(cases[i].payload), WX_DONE, cases[i].count, cases[i].elements[0]);
}

static void list_refusals(void)
{
    static const struct {
        const char *payload;
        uint32_t refusal;
        uint64_t place;
    } cases[] = {
        {"1-", WX_MALFORMED, 2},
        {"1-2-3", WX_MALFORMED, 3},
        {"\"a", WX_MALFORMED, 2},
        {"\"\\2", WX_MALFORMED, 3},
        {"\"\\2g\"", WX_MALFORMED, 3},
        {"(1", WX_MALFORMED, 2},
        {"1)", WX_MALFORMED, 1},
        {"-1", WX_MALFORMED, 0},
        {"0x1F", WX_MALFORMED, 1},
        {"IP", WX_MALFORMED, 0},
        {"1 ,2", WX_MALFORMED, 1},
        {"()1", WX_MALFORMED, 2},
        {"\"\x7F\"", WX_MALFORMED, 1},
        {"\"\x80\"", WX_MALFORMED, 1},
        {"\t1", WX_MALFORMED, 0},
        {"(((((1)))))", WX_TOO_DEEP, 4},
        {"((((", WX_MALFORMED, 4},
        {"((((1,(", WX_TOO_DEEP, 6},
        {"4294967296", WX_TOO_LARGE, 0},
        {"0004294967296", WX_TOO_LARGE, 0},
        /* what 32 or 64 bits would hold as a small number */
        {"18446744073709551617", WX_TOO_LARGE, 0},
        {"1-99999999999", WX_TOO_LARGE, 2},
        /* the leftmost */
        {"99999999999x", WX_TOO_LARGE, 0},
        {"99999999999,(((((", WX_TOO_LARGE, 0},
        {"x99999999999", WX_MALFORMED, 0},
    };
    /* a NUL is a byte as any other */
    static const uint8_t nul[] = {'1', 0};
    for (size_t i = 0; i < sizeof cases / sizeof cases[0]; i++)
        read_list((const uint8_t *)cases[i].payload, strlen(cases[i].payload), cases[i].refusal, cases[i].place, NULL);
    read_list(nul, 2, WX_MALFORMED, 1, NULL);
}

/* As many elements as the memory has room for, and one more, at which its form, its depth and its number are judged before the count. */
static void list_limits(void)
{
    static uint8_t commas[WX_LONGEST];
    static uint64_t expected[WX_ELEMENTS][WX_ELEMENT];
    static const struct {
        const char *behind;
        uint32_t refusal;
    } cases[] = {
        {"", WX_TOO_MANY},
        {"1", WX_TOO_MANY},
        {"1-", WX_TOO_MANY},
        {"\"", WX_TOO_MANY},
        {"(", WX_TOO_MANY},
        {",x", WX_TOO_MANY},
        {"x", WX_MALFORMED},
        {"99999999999", WX_TOO_LARGE},
    };
    for (size_t i = 0; i < WX_ELEMENTS; i++)
        expected[i][WX_ELEMENT_PLACE] = expected[i][WX_ELEMENT_END] = i;
    memset(commas, ',', sizeof commas);
    read_list(commas, 255, WX_DONE, 256, expected[0]);
    read_list(commas, WX_LONGEST, WX_TOO_MANY, 256, NULL);
    for (size_t i = 0; i < sizeof cases / sizeof cases[0]; i++) {
        const size_t n = strlen(cases[i].behind);
        memcpy(commas + 256, cases[i].behind, n);
        read_list(commas, 256 + n, cases[i].refusal, 256, NULL);
    }
    /* 255 commas within brackets are 256 members; the bracket, too, is an element */
    commas[0] = '(';
    memset(commas + 1, ',', 255);
    read_list(commas, 256, WX_MALFORMED, 256, NULL);
    memset(commas, '(', 4);
    memset(commas + 4, ',', 252);
    commas[256] = '(';
    read_list(commas, 257, WX_TOO_DEEP, 256, NULL);
}

/* A payload of any length: spaces, zeros in front of a number, and a string, each long. */
static void list_lengths(void)
{
    enum { LONG = 100000 };
    static uint8_t payload[LONG];
    static const struct {
        char of;
        const char *front, *end;
        uint64_t element[WX_ELEMENT];
    } cases[] = {
        {' ', "", "", {LONG, LONG, WX_KIND_EMPTY, 0, 0, 0}},
        {' ', "", "7", {LONG - 1, LONG, WX_KIND_NUMBER, 0, 7, 7}},
        {'0', "", "7", {0, LONG, WX_KIND_NUMBER, 0, 7, 7}},
        {'a', "\"", "\"", {0, LONG, WX_KIND_STRING, 0, 0, 0}},
    };
    for (size_t i = 0; i < sizeof cases / sizeof cases[0]; i++) {
        const size_t front = strlen(cases[i].front), end = strlen(cases[i].end);
        memset(payload, cases[i].of, LONG);
        memcpy(payload, cases[i].front, front);
        memcpy(payload + LONG - end, cases[i].end, end);
        read_list(payload, LONG, WX_DONE, 1, cases[i].element);
    }
    /* a string without its end */
    read_list(payload, LONG - 1, WX_MALFORMED, LONG - 1, NULL);
}

/* An answer to be written, and the number of its table's faulty record. */
struct saying {
    const char *table;
    size_t table_len;
    uint32_t kind;
    bool numbered;
    uint32_t number;
    const char *payload;
    size_t payload_len;
    uint64_t record;
};
#define NONE false, 0
#define IS(number) true, number
#define SAYING(table, kind, ...) SAYING_OF(table, kind, __VA_ARGS__)
#define SAYING_OF(table, kind, numbered, number, payload) {table, sizeof table - 1, kind, numbered, number, payload, sizeof payload - 1, 0}

/* Writes an answer into memory of a length, in which and behind which `.` stands. Of out the first number changes where a number is told, of the memory what is
 * written, and nothing else. */
static void say_into(size_t memory, const struct saying *s, uint32_t refusal, const char *written, size_t written_len)
{
    static uint8_t output[WX_LONGEST + 2];
    static char expected[sizeof output];
    const bool is_told = refusal == WX_DONE || refusal == WX_BAD_TABLE;
    uint64_t out[WX_OUT];
    char what[160];
    snprintf(what, sizeof what, "kind %u, number %u, %.40s, written into %zu bytes", (unsigned)s->kind, (unsigned)s->number, s->payload, memory);
    memset(output, '.', sizeof output);
    memset(expected, '.', sizeof expected);
    memcpy(expected, written, refusal == WX_DONE ? written_len : 0);
    reset_to_was(out, WX_OUT);
    same(what, wx_say((const uint8_t *)s->table, s->table_len, s->kind, s->numbered, s->number, (const uint8_t *)s->payload, s->payload_len, output, memory, out),
         refusal);
    OUT(what, is_told ? (refusal == WX_DONE ? written_len : s->record) : WAS, WAS, WAS, WAS, WAS, WAS, WAS, WAS, WAS);
    same_bytes(what, output, expected, sizeof output);
}

/* The bytes are digested as the kind, number and payload that were written, and consumed whole. */
static void say_and_hear(const struct saying *s, const char *written, size_t len)
{
    const uint64_t number = s->numbered ? s->number : 0;
    uint64_t out[WX_OUT];
    same(written, wx_digest(WX_VERBOSE, (const uint8_t *)s->table, s->table_len, (const uint8_t *)written, len, out), WX_DONE);
    same(written, out[0], s->kind);
    same(written, out[1], number);
    same(written, out[3], s->payload_len);
    same_bytes(written, written + out[2], s->payload, s->payload_len);
    same(written, out[4], len);
}

static void say(void)
{
    static const struct {
        struct saying saying;
        const char *written;
    } cases[] = {
        {SAYING("", WX_OK, NONE, ""), "\r\nOK\r\n"},
        {SAYING("", WX_OK, NONE, "+CSQ: 17,99"), "\r\n+CSQ: 17,99\r\n\r\nOK\r\n"},
        {SAYING("", WX_OK, NONE, "a\r\nb"), "\r\na\r\nb\r\n\r\nOK\r\n"},
        {SAYING("", WX_CME, IS(0), ""), "\r\n+CME ERROR: 0\r\n"},
        {SAYING("", WX_CME, IS(65535), ""), "\r\n+CME ERROR: 65535\r\n"},
        {SAYING("", WX_CMS, IS(10), ""), "\r\n+CMS ERROR: 10\r\n"},
        {SAYING("", WX_ERROR, NONE, ""), "\r\nERROR\r\n"},
        {SAYING("", WX_NO_CARRIER, NONE, ""), "\r\nNO CARRIER\r\n"},
        {SAYING("", WX_BUSY, NONE, ""), "\r\nBUSY\r\n"},
        {SAYING("", WX_NO_ANSWER, NONE, ""), "\r\nNO ANSWER\r\n"},
        {SAYING("", WX_NO_DIALTONE, NONE, ""), "\r\nNO DIALTONE\r\n"},
        {SAYING("", WX_PROMPT, IS('>'), ""), "\r\n> "},
        {SAYING("", WX_PROMPT, IS('@'), ""), "\r\n@ "},
        {SAYING("CP#\1#", WX_PROMPT, IS('#'), ""), "\r\n# "},
        {SAYING(TABLE, WX_NOTICE, IS(0), "+UUSORD: 0,4"), "\r\n+UUSORD: 0,4\r\n"},
        {SAYING("UR\4RING" "UR\2+A", WX_NOTICE, IS(1), "+A:"), "\r\n+A:\r\n"},
        {SAYING("CE\2OK", WX_OK, NONE, ""), "\r\nOK\r\n"},
        /* a number that isn't used */
        {SAYING("", WX_ERROR, false, 1, ""), "\r\nERROR\r\n"},
    };
    for (size_t i = 0; i < sizeof cases / sizeof cases[0]; i++) {
        const struct saying *s = &cases[i].saying;
        const size_t n = strlen(cases[i].written);
        say_and_hear(s, cases[i].written, n);
        say_into(WX_LONGEST, s, WX_DONE, cases[i].written, n);
        say_into(n, s, WX_DONE, cases[i].written, n);
        say_into(n - 1, s, WX_TOO_SHORT, "", 0);
        say_into(0, s, WX_TOO_SHORT, "", 0);
    }
}

/* Refused, whether the memory is long enough or not: 2 before 16, and 16 before 17. */
static void say_refusals(void)
{
    static const struct {
        uint32_t refusal;
        struct saying saying;
    } cases[] = {
        /* a kind that isn't written, or is no kind */
        {WX_NOT_READ_BACK, SAYING("", WX_NONE, NONE, "")},
        {WX_NOT_READ_BACK, SAYING("", WX_UNKNOWN, NONE, "")},
        {WX_NOT_READ_BACK, SAYING("", WX_NOT_ALLOWED, NONE, "")},
        {WX_NOT_READ_BACK, SAYING("CE\3BAD", WX_CUSTOM, IS(0), "BAD")},
        {WX_NOT_READ_BACK, SAYING("", WX_CAPACITY, NONE, "")},
        {WX_NOT_READ_BACK, SAYING("", UINT32_MAX, NONE, "")},
        /* a number with a kind that has none, or none, or one that is never cut */
        {WX_NOT_READ_BACK, SAYING("", WX_OK, IS(0), "")},
        {WX_NOT_READ_BACK, SAYING("", WX_ERROR, IS(0), "")},
        {WX_NOT_READ_BACK, SAYING("", WX_CME, false, 10, "")},
        {WX_NOT_READ_BACK, SAYING("", WX_CMS, IS(65536), "")},
        {WX_NOT_READ_BACK, SAYING("", WX_CMS, IS(65546), "")},
        {WX_NOT_READ_BACK, SAYING("", WX_CMS, IS(UINT32_MAX), "")},
        {WX_NOT_READ_BACK, SAYING("", WX_PROMPT, NONE, "")},
        {WX_NOT_READ_BACK, SAYING("", WX_PROMPT, IS('#'), "")},
        {WX_NOT_READ_BACK, SAYING("", WX_PROMPT, IS(256 + '>'), "")},
        {WX_NOT_READ_BACK, SAYING(TABLE, WX_NOTICE, NONE, "+UUSORD: 0,4")},
        {WX_NOT_READ_BACK, SAYING(TABLE, WX_NOTICE, IS(1), "+UUSORD: 0,4")},
        {WX_NOT_READ_BACK, SAYING(TABLE, WX_NOTICE, IS(WX_RING), "+UUSORD: 0,4")},
        /* a payload with a kind that has none, and payloads that would be heard in another way */
        {WX_NOT_READ_BACK, SAYING("", WX_BUSY, NONE, "x")},
        {WX_NOT_READ_BACK, SAYING("", WX_OK, NONE, "OK")},
        {WX_NOT_READ_BACK, SAYING("", WX_OK, NONE, "a\r\nOK")},
        {WX_NOT_READ_BACK, SAYING("", WX_OK, NONE, " x")},
        {WX_NOT_READ_BACK, SAYING(TABLE, WX_OK, NONE, "+UUSORD: 0,4")},
        {WX_NOT_READ_BACK, SAYING(TABLE, WX_NOTICE, IS(0), "+UUSORD 0,4")},
        {WX_NOT_READ_BACK, SAYING("UR\2+A" "UR\2+A", WX_NOTICE, IS(1), "+A")},
        {WX_NOT_READ_BACK, SAYING("CS\5ERROR", WX_ERROR, NONE, "")},
        /* the record's number is told; the answer wouldn't be read back either */
        {WX_BAD_TABLE, {"UR\7+UUSORDUR\0", 13, WX_NONE, NONE, "", 0, 1}},
        {WX_BAD_TABLE, {"U", 1, WX_OK, NONE, "", 0, 0}},
    };
    for (size_t i = 0; i < sizeof cases / sizeof cases[0]; i++) {
        say_into(WX_LONGEST, &cases[i].saying, cases[i].refusal, "", 0);
        say_into(0, &cases[i].saying, cases[i].refusal, "", 0);
    }
}

/* The longest answers, one over them, and payloads of any length. */
static void say_lengths(void)
{
    static char payload[70000], written[WX_LONGEST];
    const size_t most = WX_LONGEST - 10, notice = WX_LONGEST - 4;
    struct saying s = SAYING("", WX_OK, NONE, payload);
    memset(payload, 'a', sizeof payload);
    memset(written, 'a', sizeof written);
    memcpy(written, "\r\n", 2);
    memcpy(written + 2 + most, "\r\n\r\nOK\r\n", 8);
    s.payload_len = most;
    say_into(WX_LONGEST, &s, WX_DONE, written, WX_LONGEST);
    say_into(WX_LONGEST - 1, &s, WX_TOO_SHORT, "", 0);
    const size_t over[] = {most + 1, WX_LONGEST, WX_LONGEST + 1, sizeof payload};
    for (size_t i = 0; i < sizeof over / sizeof over[0]; i++) {
        s.payload_len = over[i];
        say_into(WX_LONGEST + 1, &s, WX_NOT_READ_BACK, "", 0);
    }
    s = (struct saying)SAYING("UR\1a", WX_NOTICE, IS(0), payload);
    payload[1] = ':';
    s.payload_len = notice;
    memcpy(written + 2, payload, notice);
    memcpy(written + 2 + notice, "\r\n", 2);
    say_into(WX_LONGEST, &s, WX_DONE, written, WX_LONGEST);
    s.payload_len = notice + 1;
    say_into(WX_LONGEST, &s, WX_NOT_READ_BACK, "", 0);
}

/* The deepest retry, of a notice that is all CRLFs. */
static void say_deepest(void)
{
    static char crlfs[WX_LONGEST - 4];
    struct saying s = SAYING(TABLE, WX_NOTICE, IS(0), crlfs);
    for (size_t i = 0; i < sizeof crlfs; i++)
        crlfs[i] = i % 2 == 0 ? '\r' : '\n';
    s.payload_len = sizeof crlfs;
    say_into(WX_LONGEST, &s, WX_NOT_READ_BACK, "", 0);
}

int main(void)
{
    same("the version", wx_version(), WX_VERSION);
    table_check();
    digest();
    for (size_t d = 0; d < DIGESTERS; d++) {
        digest_refusals(digesters[d]);
        deepest(digesters[d]);
    }
    digest_numeric();
    digest_numeric_refusals();
    deepest(WX_NUMERIC);
    slot();
    slot_serial();
    slot_serial_over();
    slot_digits();
    slot_bytes();
    queue();
    queue_lengths();
    queue_damaged();
    convert();
    ingress();
    ingress_digits();
    ingress_connect();
    ingress_numeric();
    cut();
    cut_numeric();
    late();
    serial_stays();
    findings();
    feed();
    feed_refusals();
    feed_deepest();
    lists();
    list_refusals();
    list_limits();
    list_lengths();
    say();
    say_refusals();
    say_lengths();
    say_deepest();
    if (differences == 0)
        puts("exports: every function of walumbeex.h answered as document 01, R-4, R-12 and R-14 say");
    return differences != 0;
}
