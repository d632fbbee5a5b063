/* say: prints an answer as a modem would give it, for a bench that plays the modem.
 *
 *     say KIND [WHAT]         such as: say ok '+CSQ: 17,99' > DEVICE
 *
 *     ok [PAYLOAD]            the line PAYLOAD, where there is one, and the line OK
 *     cme CODE, cms CODE      +CME ERROR, +CMS ERROR
 *     error, nocarrier, busy, noanswer, nodialtone
 *     notice LINE             such as '+CREG: 1': the table has one notice, the text of which is what stands before the LINE's first colon
 *     prompt BYTE             such as '>'
 * Whoever digests the bytes under the same table, in one piece, hears this answer. One that would be heard in another way is refused, and nothing is printed.
 * Status 0: the answer was printed; 1: it was refused, or the output could not be written; 2: wrong usage. */
#include "walumbeex.h"

#include <errno.h>
#include <stdio.h>
#include <stdlib.h>
#include <string.h>

#define USAGE "usage: say KIND [WHAT]   (KIND is ok [PAYLOAD], cme CODE, cms CODE, error, nocarrier, busy, noanswer, nodialtone, notice LINE or prompt BYTE)"

/* The answer to be written: a number where its kind has one, a payload where it has one. */
static struct {
    bool numbered;
    uint32_t number;
    const char *payload;
} answer = {false, 0, ""};

static uint8_t table[3 + WX_LONGEST_TEXT], bytes[WX_LONGEST];
static size_t table_len;
static uint64_t out[WX_OUT];

static int no_what(const char *what)
{
    return what == NULL;
}

static int a_payload(const char *what)
{
    if (what != NULL)
        answer.payload = what;
    return 1;
}

static int a_code(const char *what)
{
    if (what == NULL || *what == '\0' || what[strspn(what, "0123456789")] != '\0')
        return 0;
    errno = 0;
    const unsigned long long code = strtoull(what, NULL, 10);
    answer.numbered = true;
    answer.number = (uint32_t)code;
    return errno == 0 && code <= UINT32_MAX;
}

static int a_byte(const char *what)
{
    if (what == NULL || strlen(what) != 1)
        return 0;
    answer.numbered = true;
    answer.number = (uint8_t)*what;
    return 1;
}

/* A notice and its table: the mark UR, the text's length and the text, which is what stands before the line's colon. */
static int a_line(const char *what)
{
    const size_t len = what == NULL ? 0 : strcspn(what, ":");
    if (len == 0 || len > WX_LONGEST_TEXT)
        return 0;
    memcpy(table, "UR", 2);
    table[2] = (uint8_t)len;
    memcpy(table + 3, what, len);
    table_len = 3 + len;
    answer.numbered = true;
    answer.number = 0;
    answer.payload = what;
    return 1;
}

static const struct kind {
    const char *name;
    uint32_t number;
    int (*takes)(const char *what);
} kinds[] = {
    {"ok", WX_OK, a_payload},
    {"prompt", WX_PROMPT, a_byte},
    {"cme", WX_CME, a_code},
    {"cms", WX_CMS, a_code},
    {"error", WX_ERROR, no_what},
    {"nocarrier", WX_NO_CARRIER, no_what},
    {"busy", WX_BUSY, no_what},
    {"noanswer", WX_NO_ANSWER, no_what},
    {"nodialtone", WX_NO_DIALTONE, no_what},
    {"notice", WX_NOTICE, a_line},
};

static const struct kind *kind_of(const char *name)
{
    for (size_t i = 0; i < sizeof kinds / sizeof kinds[0]; i++)
        if (strcmp(name, kinds[i].name) == 0)
            return &kinds[i];
    return NULL;
}

/* By the refusals' numbers; the memory is never too short. */
static const char *const faults[] = {
    [WX_BAD_TABLE] = "no notice has such a text",
    [WX_NOT_READ_BACK] = "it would not be heard so",
};

/* Prints the answer; 1 where it is refused. */
static int print(uint32_t kind)
{
    const uint32_t refusal = wx_say(table, table_len, kind, answer.numbered, answer.number, (const uint8_t *)answer.payload, strlen(answer.payload), bytes,
                                    sizeof bytes, out);
    if (refusal != WX_DONE) {
        fprintf(stderr, "say: refused %u: %s\n", (unsigned)refusal, faults[refusal]);
        return 1;
    }
    fwrite(bytes, 1, out[0], stdout);
    return 0;
}

int main(int words, char **word)
{
    int status = 0;
    if (words < 2 || words > 3) {
        fprintf(stderr, "say: it takes a KIND and at most one WHAT, and got %d words; " USAGE "\n", words - 1);
        return 2;
    }
    if (wx_version() != WX_VERSION) {
        fprintf(stderr, "say: libgateway.a is of version %u and walumbeex.h of version %u: take both from the same sources\n", (unsigned)wx_version(),
                (unsigned)WX_VERSION);
        return 1;
    }
    if (words == 2 && strcmp(word[1], "--help") == 0) {
        puts(USAGE);
    } else {
        const struct kind *kind = kind_of(word[1]);
        if (kind == NULL || !kind->takes(word[2])) {
            fprintf(stderr, "say: \"%s%s%s\" is no answer; " USAGE "\n", word[1], words == 3 ? " " : "", words == 3 ? word[2] : "");
            return 2;
        }
        status = print(kind->number);
    }
    if (fflush(stdout) != 0 || ferror(stdout)) {
        fprintf(stderr, "say: standard output can't be written: %s\n", strerror(errno));
        return 1;
    }
    return status;
}
