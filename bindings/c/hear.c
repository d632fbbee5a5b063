/* hear: prints what a modem says, as it says it.
 *
 *     [QUIET=MS] [DIGESTER=NAME] hear [NOTICE ..] < DEVICE        such as: hear RING +CREG < /dev/ttyUSB0
 *
 * The device is read as it is set; `stty -F DEVICE raw 115200` sets it. A NOTICE is a line that is that text, or the text, `:` and more: +CREG hears
 * "+CREG: 1"; +IPD doesn't hear "+IPD,12:abc". A > or @ is a prompt where for MS milliseconds nothing follows it: 200, which is more than lies between two bytes
 * of a line, also where an adapter gathers them. An error's digits are printed as they came. NAME is verbose, as without a DIGESTER, or one of two more:
 *     connect   CONNECT with text behind it, such as "CONNECT 9600", is an ok too. The text isn't printed: an ingress doesn't hand it on
 *     numeric   a modem in V0, which ends an answer with a code and CR, such as "0\r". It takes no NOTICE: the one that there is, RING, is a code, and printed by
 *               its name. What ends in a CR is heard where for MS milliseconds nothing follows it, since an LF behind it would make a code a line of information
 * Status 0: the input came to its end; 1: it could not be read, or the output not be written, or a call was refused; 2: wrong usage. */
#include "walumbeex.h"

#include <errno.h>
#include <poll.h>
#include <stdio.h>
#include <stdlib.h>
#include <string.h>
#include <unistd.h>

#define USAGE \
    "usage: [QUIET=MS] [DIGESTER=NAME] hear [NOTICE ..] < DEVICE   " \
    "(a NOTICE is a text such as RING or +CREG; MS is 1 to 60000; NAME is verbose, connect or numeric, which takes no NOTICE)"

/* The memory for an answer. */
#ifndef ANSWER
#define ANSWER WX_LONGEST
#endif

/* Room for one text more than a table may have, so that one too many is seen to be. */
static uint8_t table[65 * 35], buf[WX_LONGEST], slot_mem[ANSWER], queue_mem[4 * WX_RECORD];
static size_t table_len;
static int quiet = 200;
static uint32_t digester = WX_VERBOSE;
static uint64_t state[WX_NUMBERS], out[WX_OUT];

/* By WX_HELD's numbers. */
static const char *const names[] = {
    "none", "ok", "prompt", "cme error", "cms error", "modem error", "not allowed", "error", "no carrier", "busy", "no answer", "no dialtone",
    "error", "notice", "too long: an answer that the memory for it does not hold",
};

static void stop(const char *what)
{
    fprintf(stderr, "hear: %s: %s\n", what, strerror(errno));
    exit(1);
}

/* Stops where a call was refused. */
static void must_be_done(uint32_t refusal)
{
    if (refusal == WX_DONE)
        return;
    fprintf(stderr, "hear: refusal %u\n", (unsigned)refusal);
    exit(1);
}

/* The bytes, with a backslash for what can't be printed. */
static void escaped(FILE *to, const uint8_t *bytes, size_t n)
{
    for (size_t i = 0; i < n; i++) {
        if (bytes[i] == '\r')
            fputs("\\r", to);
        else if (bytes[i] == '\n')
            fputs("\\n", to);
        else if (bytes[i] < 0x20 || bytes[i] > 0x7E)
            fprintf(to, "\\x%02x", (unsigned)bytes[i]);
        else
            putc(bytes[i], to);
    }
}

/* A line for what was heard: its name, a prompt's byte, its payload, an error's digits as they came, or its code where the memory was too short for them. */
static void print(uint64_t kind, uint64_t number, const uint8_t *bytes, size_t len)
{
    printf("%s", names[kind]);
    if ((kind == WX_CME || kind == WX_CMS) && len == 0)
        printf(" %llu", (unsigned long long)number);
    if (kind == WX_PROMPT)
        printf(" %c", (int)number);
    if (len > 0)
        putchar(' ');
    escaped(stdout, bytes, len);
    putchar('\n');
    if (fflush(stdout) != 0)
        stop("standard output can't be written");
}

/* Prints the oldest notice; was there one? */
static int notice(void)
{
    if (wx_queue_take(state, queue_mem, sizeof queue_mem, out) != WX_DONE || out[0] == 0)
        return 0;
    if (out[1] == WX_RING)
        print(WX_NOTICE, WX_RING, (const uint8_t *)"RING", 4);
    else
        print(WX_NOTICE, out[1], queue_mem + out[2], out[3]);
    return 1;
}

static void notices(void)
{
    while (notice())
        ;
}

/* Prints the answer that is held, behind the notices that came before it, and frees the slot. No command is sent here: the serial numbers count the answers. */
static void answer(void)
{
    if (state[WX_SIGNALLED] == 0)
        return;
    notices();
    must_be_done(wx_slot_lookup(state, slot_mem, sizeof slot_mem, out));
    print(out[1], out[2], slot_mem, out[3]);
    must_be_done(wx_slot_reset(state, (uint32_t)(state[WX_SERIAL] + 1), slot_mem, sizeof slot_mem));
}

static uint32_t advance(void)
{
    return wx_ingress_advance(state, 0, digester, table, table_len, buf, sizeof buf, slot_mem, sizeof slot_mem, queue_mem, sizeof queue_mem, out);
}

/* Hands a piece over, all of it. The bytes taken are never offered again. */
static void hear(const uint8_t *piece, size_t n)
{
    while (n > 0) {
        uint32_t refusal = wx_ingress_write(state, piece, n, digester, table, table_len, buf, sizeof buf, slot_mem, sizeof slot_mem, queue_mem,
                                            sizeof queue_mem, out);
        size_t taken = refusal == WX_DONE || refusal == WX_FULL ? out[0] : 0;
        piece += taken;
        n -= taken;
        /* Nothing fitted, and a write that takes nothing digests nothing. */
        if (refusal == WX_DONE && taken == 0)
            refusal = advance();
        /* A notice that is taken makes room for the one that waits. */
        while (refusal == WX_FULL && notice())
            refusal = advance();
        must_be_done(refusal);
        answer();
        if (taken == 0 && state[WX_END] == sizeof buf) {
            fprintf(stderr, "hear: the buffer is full and nothing in it is finished: %zu bytes dropped\n", sizeof buf);
            wx_ingress_clear(state);
        }
    }
}

/* Is the last byte, blanks aside, a > or an @? With nothing behind it, it is heard as a prompt. */
static int ends_as_a_prompt(const uint8_t *bytes, size_t n)
{
    while (n > 0 && memchr(" \t\r\n", bytes[n - 1], 4) != NULL)
        n--;
    return n > 0 && (bytes[n - 1] == '>' || bytes[n - 1] == '@');
}

/* Does what is heard of the bytes hang on what follows them? A CR may end a code, and with an LF behind it ends a line of information. */
static int hangs_on_more(const uint8_t *bytes, size_t n)
{
    return digester == WX_NUMERIC ? n > 0 && bytes[n - 1] == '\r' : ends_as_a_prompt(bytes, n);
}

/* How many of the bytes to hand over at once: a line, since the slot holds one answer and each but a prompt ends with its line. A line that ends as a
 * prompt goes with the next. In V0 a line that may be an answer ends in a CR with no LF behind it. */
static size_t piece_of(const uint8_t *bytes, size_t n)
{
    for (size_t k = 1; k < n; k++) {
        const int ends = digester == WX_NUMERIC ? bytes[k - 1] == '\r' && bytes[k] != '\n' : bytes[k - 1] == '\n' && !ends_as_a_prompt(bytes, k);
        if (ends)
            return k;
    }
    return n;
}

/* What a read gave; where that hangs on more, with what came until the line went quiet. 0 at the end. */
static size_t heard_now(uint8_t *heard, size_t room)
{
    struct pollfd line = {STDIN_FILENO, POLLIN, 0};
    size_t n = 0;
    ssize_t got;
    do {
        do
            got = read(STDIN_FILENO, heard + n, room - n);
        while (got < 0 && errno == EINTR);
        if (got < 0)
            stop("standard input can't be read");
        n += (size_t)got;
    } while (got > 0 && n < room && hangs_on_more(heard, n) && poll(&line, 1, quiet) > 0);
    return n;
}

/* Takes the digester of that name; 0 where there is none. */
static int choose(const char *name)
{
    static const char *const digesters[] = {[WX_VERBOSE] = "verbose", [WX_CONNECT] = "connect", [WX_NUMERIC] = "numeric"};
    for (digester = WX_VERBOSE; digester <= WX_NUMERIC; digester++)
        if (strcmp(name, digesters[digester]) == 0)
            return 1;
    return 0;
}

int main(int words, char **word)
{
    if (words == 2 && strcmp(word[1], "--help") == 0) {
        puts(USAGE);
        if (fflush(stdout) != 0)
            stop("standard output can't be written");
        return 0;
    }
    if (wx_version() != WX_VERSION) {
        fprintf(stderr, "hear: libgateway.a is of version %u and walumbeex.h of version %u: take both from the same sources\n", (unsigned)wx_version(),
                (unsigned)WX_VERSION);
        return 1;
    }
    if (getenv("QUIET") != NULL) {
        quiet = atoi(getenv("QUIET"));
        if (quiet < 1 || quiet > 60000) {
            fprintf(stderr, "hear: QUIET is \"%s\"; " USAGE "\n", getenv("QUIET"));
            return 2;
        }
    }
    if (getenv("DIGESTER") != NULL && !choose(getenv("DIGESTER"))) {
        fprintf(stderr, "hear: DIGESTER is \"%s\"; " USAGE "\n", getenv("DIGESTER"));
        return 2;
    }
    if (digester == WX_NUMERIC && words > 1) {
        fprintf(stderr, "hear: \"%s\" is a NOTICE, and with DIGESTER=numeric there is none: a modem in V0 sends codes, RING among them; " USAGE "\n", word[1]);
        return 2;
    }
    for (int i = 1; i < words; i++) {
        size_t n = strlen(word[i]);
        if (n <= 32 && table_len + 3 + n <= sizeof table) {
            memcpy(table + table_len, (const uint8_t[]){'U', 'R', (uint8_t)n}, 3);
            memcpy(table + table_len + 3, word[i], n);
            table_len += 3 + n;
        }
        if (n > 32 || wx_table_check(table, table_len, out) != WX_DONE) {
            fprintf(stderr, "hear: \"%s\" is no text of a notice (1 to 32 printable characters, at most 64 texts); " USAGE "\n", word[i]);
            return 2;
        }
    }
    wx_slot_new(state);
    wx_queue_new(state);
    wx_ingress_clear(state);

    uint8_t heard[WX_LONGEST];
    size_t n;
    while ((n = heard_now(heard, sizeof heard)) > 0) {
        for (size_t from = 0, k; from < n; from += k) {
            k = piece_of(heard + from, n - from);
            hear(heard + from, k);
        }
        notices();
    }
    if (state[WX_SLOT_LOST] > 0 || state[WX_QUEUE_LOST] > 0)
        fprintf(stderr, "hear: %llu answers and %llu notices were lost\n", (unsigned long long)state[WX_SLOT_LOST],
                (unsigned long long)state[WX_QUEUE_LOST]);
    if (state[WX_END] > 0) {
        fputs("hear: unfinished at the end: ", stderr);
        escaped(stderr, buf, state[WX_END]);
        putc('\n', stderr);
    }
    return 0;
}
