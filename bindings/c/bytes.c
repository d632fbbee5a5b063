/* bytes: prints what a modem says, for a board whose driver hands over one byte at a time.
 *
 *     bytes < DEVICE
 *
 * `byte_came` is what such a driver calls with each byte, and `line_is_quiet` what a timer calls where none came for QUIET milliseconds; here `main` calls both. The
 * findings beside the state spare a byte that finishes nothing a digest of all that is in the buffer. RING and +CREG are notices.
 * Of single bytes each answer is heard when it comes: ERROR and an OK behind it are two. A > or @ inside a line would be heard as a prompt, so it is held back until
 * a byte comes that is no blank, or the line is quiet.
 * Status 0: the input came to its end; 1: it could not be read, or the output not be written, or a call was refused; 2: wrong usage. */
#include "walumbeex.h"

#include <errno.h>
#include <poll.h>
#include <stdio.h>
#include <stdlib.h>
#include <string.h>
#include <unistd.h>

#define USAGE "usage: bytes < DEVICE   (it takes no words; RING and +CREG are notices)"

#ifndef QUIET
#define QUIET 200
#endif

static const uint8_t table[] = "UR\4RING" "UR\5+CREG";
static uint8_t buf[1024], slot_mem[1024], queue_mem[2 * WX_RECORD];
static uint64_t state[WX_NUMBERS], findings[WX_FINDINGS], out[WX_OUT];

/* What may be a prompt, and the blanks behind it. */
static uint8_t held_back[8];
static size_t held_len;

/* By WX_HELD's numbers; no table here has a custom error. */
static const char *const names[] = {
    "none", "ok", "prompt", "cme error", "cms error", "modem error", "not allowed", "error", "no carrier", "busy", "no answer", "no dialtone",
    "error", "notice", "too long",
};

static void stop(const char *what)
{
    fprintf(stderr, "bytes: %s: %s\n", what, strerror(errno));
    exit(1);
}

static void must_be_done(uint32_t refusal)
{
    if (refusal == WX_DONE)
        return;
    fprintf(stderr, "bytes: refusal %u\n", (unsigned)refusal);
    exit(1);
}

/* A line for what was heard: its name and its bytes; a byte that can't be printed is a dot. */
static void print(uint64_t kind, const uint8_t *bytes, size_t len)
{
    printf("%s%s", names[kind], len > 0 ? " " : "");
    for (size_t i = 0; i < len; i++)
        putchar(bytes[i] < 0x20 || bytes[i] > 0x7E ? '.' : bytes[i]);
    putchar('\n');
    if (fflush(stdout) != 0)
        stop("standard output can't be written");
}

/* Prints the notices and the answer that wait. No command is sent here: the serial numbers count the answers. */
static void deliver(void)
{
    while (wx_queue_take(state, queue_mem, sizeof queue_mem, out) == WX_DONE && out[0] == 1)
        print(WX_NOTICE, queue_mem + out[2], out[3]);
    if (state[WX_SIGNALLED] == 0)
        return;
    must_be_done(wx_slot_lookup(state, slot_mem, sizeof slot_mem, out));
    const uint8_t prompt = (uint8_t)out[2];
    if (out[1] == WX_PROMPT)
        print(WX_PROMPT, &prompt, 1);
    else
        print(out[1], slot_mem, out[3]);
    must_be_done(wx_slot_reset(state, (uint32_t)(state[WX_SERIAL] + 1), slot_mem, sizeof slot_mem));
}

#define MEMORIES WX_VERBOSE, table, sizeof table - 1, buf, sizeof buf, slot_mem, sizeof slot_mem, queue_mem, sizeof queue_mem, out

/* Hands over a byte, or a few. */
static void feed(const uint8_t *bytes, size_t n)
{
    while (n > 0) {
        uint32_t refusal = wx_feed_write(state, findings, bytes, n, MEMORIES);
        const size_t taken = refusal == WX_DONE || refusal == WX_FULL ? out[0] : 0;
        bytes += taken;
        n -= taken;
        /* What is taken from the queue makes room for the notice that waits. */
        while (refusal == WX_FULL) {
            deliver();
            refusal = wx_feed_advance(state, findings, 0, MEMORIES);
        }
        must_be_done(refusal);
        deliver();
        /* Every call before this one left nothing that is finished, and no further byte fits. */
        if (taken == 0) {
            fprintf(stderr, "bytes: the buffer is full and nothing in it is finished: %zu bytes dropped\n", sizeof buf);
            wx_ingress_clear(state);
            memset(findings, 0, sizeof findings);
        }
    }
}

static void line_is_quiet(void)
{
    feed(held_back, held_len);
    held_len = 0;
}

/* Is the last byte, blanks aside, a > or an @? With nothing behind it, it is heard as a prompt. */
static int ends_as_a_prompt(const uint8_t *bytes, size_t n)
{
    while (n > 0 && memchr(" \t\r\n", bytes[n - 1], 4) != NULL)
        n--;
    return n > 0 && (bytes[n - 1] == '>' || bytes[n - 1] == '@');
}

static void byte_came(uint8_t byte)
{
    held_back[held_len++] = byte;
    if (!ends_as_a_prompt(held_back, held_len) || held_len == sizeof held_back)
        line_is_quiet();
}

int main(int words, char **word)
{
    if (words == 2 && strcmp(word[1], "--help") == 0) {
        puts(USAGE);
        if (fflush(stdout) != 0)
            stop("standard output can't be written");
        return 0;
    }
    if (words != 1) {
        fprintf(stderr, "bytes: it takes no words, and got \"%s\"; " USAGE "\n", word[1]);
        return 2;
    }
    if (wx_version() != WX_VERSION) {
        fprintf(stderr, "bytes: libgateway.a is of version %u and walumbeex.h of version %u: take both from the same sources\n", (unsigned)wx_version(),
                (unsigned)WX_VERSION);
        return 1;
    }
    /* The findings of an empty buffer are zeros, as they stand. */
    wx_slot_new(state);
    wx_queue_new(state);
    wx_ingress_clear(state);

    struct pollfd line = {STDIN_FILENO, POLLIN, 0};
    uint8_t byte;
    ssize_t got;
    do {
        if (held_len > 0 && poll(&line, 1, QUIET) == 0)
            line_is_quiet();
        do
            got = read(STDIN_FILENO, &byte, 1);
        while (got < 0 && errno == EINTR);
        if (got < 0)
            stop("standard input can't be read");
        if (got > 0)
            byte_came(byte);
    } while (got > 0);
    line_is_quiet();
    if (state[WX_END] > 0)
        fprintf(stderr, "bytes: %llu bytes are left in which nothing is finished\n", (unsigned long long)state[WX_END]);
    return 0;
}
