/* stacks: each call does with the stack that include/walumbeex.h says.
 *
 * A call runs on a stack of its own, as long as the header has a caller give a thread. In front of it lies a page that can't be touched, so that a call that takes more
 * ends the program. The inputs are those that go deepest: the deepest retry, a notice that is all CRLFs, and lists of as many elements as there may be, and of one more.
 * Status 0: each ran, and answered as it should; 1: a line on standard error says which answered otherwise, or that no such stack could be had. */
#include "walumbeex.h"

#include <fcntl.h>
#include <stdio.h>
#include <stdlib.h>
#include <string.h>
#include <sys/mman.h>
#include <ucontext.h>
#include <unistd.h>

/* What the header says, in bytes: for any call but the two behind it, for one that writes an answer, and for one that reads a list. */
enum { ANY = 8 * 1024, SAY = 12 * 1024, LIST = 64 * 1024 };

static const uint8_t table[] = "UR\7+UUSORD";
static uint8_t crlfs[WX_LONGEST], list[5 * WX_ELEMENTS], buf[WX_LONGEST], slot_mem[16], queue_mem[WX_RECORD], output[WX_LONGEST];
static uint64_t state[WX_NUMBERS], findings[WX_FINDINGS], elements[WX_ELEMENTS * WX_ELEMENT], out[WX_OUT];
static uint32_t digester, refusal;
static size_t table_len, list_len;

static void digest(void)
{
    refusal = wx_digest(digester, table, table_len, crlfs, sizeof crlfs, out);
}

#define MEMORIES buf, sizeof buf, slot_mem, sizeof slot_mem, queue_mem, sizeof queue_mem, out

static void ingress(void)
{
    refusal = wx_ingress_write(state, crlfs, sizeof crlfs, digester, table, table_len, MEMORIES);
}

static void feed(void)
{
    refusal = wx_feed_write(state, findings, crlfs, sizeof crlfs, digester, table, table_len, MEMORIES);
}

static void say(void)
{
    refusal = wx_say(table, table_len, WX_NOTICE, true, 0, crlfs, sizeof crlfs - 4, output, sizeof output, out);
}

static void read_list(void)
{
    refusal = wx_list_read(list, list_len, elements, out);
}

static void must(int holds, const char *what)
{
    if (holds)
        return;
    fprintf(stderr, "stacks: %s\n", what);
    exit(1);
}

/* Runs the call on a stack of so many bytes, and says whether it answered so. */
static void on(size_t size, void (*call)(void), uint32_t expected, const char *what)
{
    static ucontext_t here, there;
    const size_t page = (size_t)sysconf(_SC_PAGESIZE);
    const int zeros = open("/dev/zero", O_RDWR);
    uint8_t *pages = zeros < 0 ? MAP_FAILED : mmap(NULL, page + size, PROT_READ | PROT_WRITE, MAP_PRIVATE, zeros, 0);
    must(pages != MAP_FAILED && mprotect(pages, page, PROT_NONE) == 0 && getcontext(&there) == 0, "no stack could be had");
    there.uc_stack.ss_sp = pages + page;
    there.uc_stack.ss_size = size;
    there.uc_link = &here;
    makecontext(&there, call, 0);
    /* Where the call ends the program, this line is the last one. */
    printf("stacks: %s in %zu bytes\n", what, size);
    fflush(stdout);
    must(swapcontext(&here, &there) == 0, "no stack could be entered");
    must(refusal == expected, what);
    must(munmap(pages, page + size) == 0 && close(zeros) == 0, "a stack could not be given back");
}

/* Makes the list the text so many times: as many elements, and an empty one behind the last comma. */
static void lists_of(const char *text, size_t n)
{
    list_len = n * strlen(text);
    for (size_t i = 0; i < list_len; i++)
        list[i] = (uint8_t)text[i % strlen(text)];
}

int main(void)
{
    for (size_t i = 0; i < sizeof crlfs; i++)
        crlfs[i] = i % 2 == 0 ? '\r' : '\n';
    for (digester = WX_VERBOSE; digester <= WX_NUMERIC; digester++) {
        table_len = digester == WX_NUMERIC ? 0 : sizeof table - 1;
        wx_slot_new(state);
        wx_queue_new(state);
        wx_ingress_clear(state);
        on(ANY, digest, WX_DONE, "a digest");
        on(ANY, ingress, WX_DONE, "a write");
        wx_ingress_clear(state);
        memset(findings, 0, sizeof findings);
        on(ANY, feed, WX_DONE, "a write with findings");
    }
    table_len = sizeof table - 1;
    on(SAY, say, WX_NOT_READ_BACK, "an answer that is written");
    lists_of(",", WX_ELEMENTS - 1);
    on(LIST, read_list, WX_DONE, "a list of empty places");
    lists_of("0-31,", WX_ELEMENTS - 1);
    on(LIST, read_list, WX_DONE, "a list of ranges");
    lists_of("\"a\",", WX_ELEMENTS);
    on(LIST, read_list, WX_TOO_MANY, "a list that is too long");
    puts("stacks: each call did with the stack that walumbeex.h says");
    return 0;
}
