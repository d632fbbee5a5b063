/* lists: prints the elements of a parameter list, such as a test command is answered with.
 *
 *     lists ANSWER        such as: lists '+CSQ: (0-31,99),(0-7,99)'
 *
 * What stands behind the first colon of the ANSWER is read, all of it where there is none. An element is a line, the further in the more brackets it stands within:
 *     list
 *       range 0 to 31
 *       number 99
 * A list that is refused is shown with a mark under the place at which it was refused.
 * Status 0: the list was read; 1: it was refused, or the output could not be written; 2: wrong usage. */
#include "walumbeex.h"

#include <errno.h>
#include <stdio.h>
#include <string.h>

#define USAGE "usage: lists ANSWER   (an ANSWER is a line such as '+CSQ: (0-31,99),(0-7,99)'; what stands behind its first colon is read)"

static uint64_t elements[WX_ELEMENTS * WX_ELEMENT], out[WX_OUT];

/* By WX_ELEMENT_KIND's numbers. */
static const char *const names[] = {"empty", "number", "range", "string", "list"};

/* By the refusals' numbers. */
static const char *const faults[] = {
    [WX_MALFORMED] = "no parameter list goes on so",
    [WX_TOO_DEEP] = "a bracket within 4 brackets",
    [WX_TOO_LARGE] = "a number over 4,294,967,295",
    [WX_TOO_MANY] = "more than 256 elements",
};

/* A line for an element: what it is, and a number's value, the two of a range, or a string as it came, with its quotes. */
static void print(const uint8_t *payload, const uint64_t *e)
{
    const uint64_t kind = e[WX_ELEMENT_KIND], place = e[WX_ELEMENT_PLACE];
    printf("%*s%s", 2 * (int)e[WX_ELEMENT_DEPTH], "", names[kind]);
    if (kind == WX_KIND_NUMBER)
        printf(" %llu", (unsigned long long)e[WX_ELEMENT_LOW]);
    if (kind == WX_KIND_RANGE)
        printf(" %llu to %llu", (unsigned long long)e[WX_ELEMENT_LOW], (unsigned long long)e[WX_ELEMENT_HIGH]);
    if (kind == WX_KIND_STRING) {
        putchar(' ');
        fwrite(payload + place, 1, e[WX_ELEMENT_END] - place, stdout);
    }
    putchar('\n');
}

/* The refusal, and the payload with a mark under its place. A byte that can't be printed is a dot there, so that the mark stands under its byte. */
static void show(uint32_t refusal, const uint8_t *payload, size_t n)
{
    const size_t place = out[0];
    fprintf(stderr, "lists: refused %u at %zu: %s\n", (unsigned)refusal, place, faults[refusal]);
    for (size_t i = 0; i < n; i++)
        putc(payload[i] < 0x20 || payload[i] > 0x7E ? '.' : payload[i], stderr);
    putc('\n', stderr);
    for (size_t i = 0; i < place; i++)
        putc(' ', stderr);
    fputs("^\n", stderr);
}

/* Prints the elements of what stands behind the answer's colon; 1 where it is refused. */
static int print_list(const char *answer)
{
    const char *colon = strchr(answer, ':');
    const uint8_t *payload = (const uint8_t *)(colon == NULL ? answer : colon + 1);
    const size_t n = strlen((const char *)payload);
    const uint32_t refusal = wx_list_read(payload, n, elements, out);
    if (refusal != WX_DONE) {
        show(refusal, payload, n);
        return 1;
    }
    for (size_t i = 0; i < out[0]; i++)
        print(payload, elements + i * WX_ELEMENT);
    return 0;
}

int main(int words, char **word)
{
    int status = 0;
    if (words != 2) {
        fprintf(stderr, "lists: it takes one ANSWER, and got %d; " USAGE "\n", words - 1);
        return 2;
    }
    if (wx_version() != WX_VERSION) {
        fprintf(stderr, "lists: libgateway.a is of version %u and walumbeex.h of version %u: take both from the same sources\n", (unsigned)wx_version(),
                (unsigned)WX_VERSION);
        return 1;
    }
    if (strcmp(word[1], "--help") == 0)
        puts(USAGE);
    else
        status = print_list(word[1]);
    if (fflush(stdout) != 0 || ferror(stdout)) {
        fprintf(stderr, "lists: standard output can't be written: %s\n", strerror(errno));
        return 1;
    }
    return status;
}
