/* Walumbeex for C: an AT digester, a response slot, a bounded notice queue and the ingress above them; a reader of parameter lists; and a writer of answers, for a
 * bench that plays the modem.
 *
 * Bytes from a modem go in; what they were comes out: an answer (OK, an error, a prompt) at the slot, unsolicited lines (notices) at the queue. The reader takes what
 * stands behind the colon of an answer or a notice.
 *
 * Link with libgateway.a (`bin/archive` makes it; x86-64, System V calling convention, pointers of 64 bits). Each function is proved to equal
 * the call of document 01 (docs/01.md) behind it: the definitions are in crates/numbers/specs/Numbers.antt (what each number means) and
 * crates/gateway/specs/Gateway.antt (what a call returns and leaves), the promises in crates/gateway/src/lib.rt. Behind wx_list_read stands the grammar of docs/LISTS.md,
 * in crates/lists/specs/Grammar.antt, behind wx_say what docs/SAYING.md shows, in crates/writer/specs/Writer.antt. No function has a condition on its numbers: any
 * number and any array may be handed in.
 *
 * What the proofs take from the caller, as for any C function:
 *   - a pointer p with its count n points to n bytes, and is not NULL, also where n is 0;
 *   - `state` and `old` point to WX_NUMBERS numbers, `findings` to WX_FINDINGS, `out` and `answer` to WX_OUT, `elements` to WX_ELEMENTS * WX_ELEMENT numbers;
 *   - what a call may write (no `const`) does not overlap anything else that is handed to the same call;
 *   - no other thread uses any of it during the call;
 *   - the archive is of this header's version: once, before all else, stop where wx_version() is not WX_VERSION;
 *   - the stack is long enough (below).
 * Nothing is kept after a call returns, and nothing is allocated. Of the C library the archive takes memcpy and memset, and nothing else (both for wx_say).
 *
 * A program: check the version; wx_slot_new, wx_queue_new and wx_ingress_clear on one array of WX_NUMBERS numbers; then, for what each read of the device gave,
 * wx_ingress_write, wx_slot_lookup where an answer is held, wx_queue_take until it is empty; and wx_slot_reset with the next serial number before each command that
 * is sent, or, in a program that sends none, behind each answer. bindings/c/hear.c is one that sends none.
 *
 * One byte at a time. Where a board hands over single bytes, wx_feed_write and wx_feed_advance take the place of wx_ingress_write and wx_ingress_advance. They answer,
 * consume and leave the same, and have findings beside the state: what was found so far in the bytes that are in the buffer, so that each new byte is looked at
 * once for the fixed lines. The plain calls digest all that is in the buffer again; for whole answers in one piece they are the cheaper ones (below, Work).
 *     uint64_t findings[WX_FINDINGS] = {0};       // those of an empty buffer: with a first state
 *     refusal = wx_feed_write(state, findings, &byte, 1, WX_VERBOSE, table, table_len, ...);
 *     memset(findings, 0, sizeof findings);       // and with each wx_ingress_clear(state)
 *   - That is promised of genuine findings: those that these calls or wx_findings_start gave for these very bytes, or zeros for none.
 *   - After a plain call, or where the bytes in the buffer were changed by hand, they aren't genuine any more: wx_findings_start makes them anew from the bytes.
 *     Another table or digester between two calls is fine.
 *   - With any other numbers, the first of which is END, the answer hangs on them too: a finished line may be passed over. Nothing trips, no more is consumed than
 *     there is, and no memory outside is touched.
 * bindings/c/bytes.c is a program that is handed one byte at a time.
 *
 * Late answers. A client gives up, sends the next command, and the late answer fills its slot. So the slot has the serial number of its command, WX_SERIAL: 0 in a
 * new slot, then that of the last reset that wasn't refused. An answer bears the number in force when it was stored, which is out[4] of wx_slot_lookup.
 *   - What the number does: it tells apart what was stored before a reset and what was stored after it; and it catches a client that repeats a reset. A second
 *     reset with the same command's number is refused (WX_REPEATED), so that it can't free an answer that has arrived since.
 *   - What it can't do: tell which command an answer belongs to, since AT answers carry no serial number:
 *         a reset with 1, no answer; a reset with 2; now the late answer of command 1 arrives, is stored, and bears 2
 *     and the answer of command 2, which meets a signalled slot, is lost and counted.
 *   - What a client can do: wait for the line to be quiet, and hand over all that came, before it resets for the next command. A late answer that arrives by then
 *     is freed with that reset. One that arrives later, or of which a part lies unfinished in the buffer, bears the next number.
 *   - The next number is any but the one in force. To have a repeated reset caught, count the commands, and hand over that count. A program that needn't, as hear.c,
 *     takes `(uint32_t)(state[WX_SERIAL] + 1)`: in a state that began with wx_slot_new that never is the one in force, and after 4,294,967,295 it is 0.
 *
 * Where a piece is cut changes what is heard. A `>` or `@` with only blanks (space, tab, CR, LF) behind it is a prompt, and so is a custom prompt's text, so a
 * piece that ends at such a byte inside a line is heard as a prompt:
 *     AT+CGDCONT?\r\r\n+CGDCONT: 1,"IP","me@apn"\r\n\r\nOK\r\n
 * is an Ok with the payload +CGDCONT: 1,"IP","me@apn"; cut behind the @ it is a prompt @ and then an Ok with none. So hand over what a read gave, single bytes
 * only where there is no more; where its last byte that is no blank is > or @, wait a moment for the line to go quiet, and hand it over with what still came. An error
 * hangs on the cut too: `ERROR` and an `OK` behind it in one piece are an Ok, and byte by byte each is answered when it comes. Two answers hang on nothing that comes
 * behind them: an Ok by the line OK under a table with no CS record, and a notice with no CRLF before its own (docs/WAITING.md).
 * With WX_NUMERIC the cut between a CR and its LF changes what is heard, and only in an information line that is exactly one of the digits listed below:
 *     0\r, then \n       an Ok and a stray LF; 0\r\n in one piece is such a line, and nothing that is finished
 *     0\r, then \n0\r    an Ok, and the second is lost, since no line starts behind a stray LF; 0\r\n0\r in one piece is an Ok with the payload 0
 * So where a read ends in a CR, wait a moment as for a prompt.
 *
 * Going on after WX_FULL, and with a full buffer:
 *   1. the bytes taken (out[0]) are consumed or in the buffer: never offer them again;
 *   2. take a notice, which makes room, and advance by 0, which delivers the notice that waits; again from 2 where that is WX_FULL;
 *   3. write the rest of the piece. A write that takes 0 of a piece that isn't empty has found no room, and digests nothing: advance by 0;
 *   4. if there is still no room, no further byte can finish what is there: wx_ingress_clear drops it.
 * With findings it is the same by wx_feed_advance and wx_feed_write, and a clear makes the findings zeros.
 * With a buffer of 0 bytes, or a queue below WX_RECORD bytes under a table with notices or with WX_NUMERIC, this goes round for ever; a buffer over WX_LONGEST
 * bytes is refused by every call.
 *
 * Restarting with a queue of the old form (version 5 and before). Its records have WX_OLD_RECORD bytes and the mark UR, those of this version WX_RECORD bytes and
 * the mark UX. wx_queue_convert writes the notices that were kept, in their order, into other memory. Convert before any other call that takes the queue: a put
 * doesn't look at what lies in its memory, and would write over them.
 *     uint64_t kept[WX_NUMBERS] = {0}, state[WX_NUMBERS];
 *     uint8_t queue_mem[WX_RECORDS * WX_RECORD];      // for as many notices as any queue holds
 *     read_back(kept, buf, slot_mem, old_mem);        // what was kept, into memory of the lengths that it had; behind nine numbers 0 stays
 *     memcpy(state, kept, sizeof state);              // END, the slot's numbers and SERIAL come along
 *     refusal = wx_queue_convert(kept, old_mem, sizeof old_mem, state, queue_mem, sizeof queue_mem);
 * At WX_DONE go on with `state`, buf, slot_mem and queue_mem as if the program hadn't ended; the old memory isn't needed any more. A refusal has changed nothing:
 *   - WX_TOO_FEW: the old queue is good, and the new memory too short for it. Nothing is lost: lend kept[WX_COUNT] * WX_RECORD bytes or more, and convert then;
 *   - WX_BAD_STATE: what was kept is no queue of the old form. See whether it was read back as it was kept, and whether it is converted already; where its notices
 *     can't be had, wx_queue_new on `state` goes on without them.
 * Keep beside the numbers which form the queue is of. The marks alone don't tell: where START isn't 0, a call that is handed the other form looks for a record
 * in the midst of one.
 *
 * The token table: records one after the other, at most WX_TABLE_RECORDS of them, with nothing before, between or behind them. Each is
 *     byte 0, 1   a mark, two letters: UR a notice, CS a custom success, CE a custom error, CP a custom prompt
 *     byte 2      only where the mark is CP: the byte that the prompt is told by, any byte
 *     the next    the length of the text, 1 to WX_LONGEST_TEXT
 *     the rest    the text: bytes 0x20 to 0x7E, the first and the last no space
 * A record is known by its number in the table, from 0; texts may be equal, and the earlier record wins. The empty table (length 0) is good.
 *     "UR\7+UUSORD" "CS\7SHUT OK" "CP$\5SEND:"      (in C; 10, 10 and 9 bytes: records 0, 1 and 2)
 * A notice is a line that is the text, or the text, `:` and more: +UUSORD hears "+UUSORD: 0,4", and +IPD doesn't hear "+IPD,12:abc". A custom success or error is a
 * line that is the text, letter case exact; a custom prompt is an input that ends in the text, blanks aside.
 *
 * Parameter lists. A test command is answered with lists in brackets, ranges, quoted strings and empty places, and so are some others. Of
 *     +CSQ: (0-31,99),(0-7,99)
 * hand over what stands behind the colon, the space with it. wx_list_read accepts exactly this grammar; docs/LISTS.md has real answers, and what is refused and why:
 *     list    = element *( "," element )
 *     element = *SP ( "" / number [ "-" number ] / string / "(" list ")" )
 *     number  = 1*DIGIT
 *     string  = DQUOTE *( char / "\" HEX HEX ) DQUOTE      char = 0x20 to 0x7E without DQUOTE and "\"
 * It tells the elements in their order, a list before its members: here a list at 1, a range of 0 to 31 at 2, a number 99 at 7, a list at 11, a range of 0 to 7 at 12,
 * a number 99 at 16. An empty place is an element too: `()` is a list with one empty member, and the empty payload has one element, which is empty.
 *     uint64_t elements[WX_ELEMENTS * WX_ELEMENT], out[WX_OUT];
 *     if (wx_list_read(payload, payload_len, elements, out) == WX_DONE)
 *         for (size_t i = 0; i < out[0]; i++) {
 *             const uint64_t *e = elements + i * WX_ELEMENT;
 *             element(e[WX_ELEMENT_KIND], payload + e[WX_ELEMENT_PLACE], e[WX_ELEMENT_END] - e[WX_ELEMENT_PLACE]);
 *         }
 * The elements behind a list are within it as long as their depth is greater than its own; its own members are those among them of the depth that is 1 greater.
 * bindings/c/lists.c is a program that prints them.
 *
 * The modem's side. A box that plays the modem on a bench writes its answers by wx_say:
 *     uint8_t bytes[WX_LONGEST];                      // enough for every answer
 *     if (wx_say(table, table_len, WX_CME, true, 10, payload, 0, bytes, sizeof bytes, out) == WX_DONE)
 *         send(bytes, out[0]);                        // \r\n+CME ERROR: 10\r\n
 * Each line goes between CRLF and CRLF:
 *     WX_OK             the payload as a line, unless it is empty, and behind it the line OK
 *     WX_CME, WX_CMS    `+CME ERROR: ` or `+CMS ERROR: ` and the code, no zeros in front of it
 *     WX_ERROR, WX_NO_CARRIER, WX_BUSY, WX_NO_ANSWER, WX_NO_DIALTONE     ERROR, NO CARRIER and so on
 *     WX_NOTICE         the payload, which is the whole line: +UUSORD: 0,4
 *     WX_PROMPT         no line: CRLF, the byte and a space
 * What is written is read back: wx_digest of these bytes, with WX_VERBOSE and the same table, answers this kind, number and payload, and consumes all of them. What
 * wouldn't be is refused with WX_NOT_READ_BACK (docs/SAYING.md has more examples):
 *   - an Ok with the payload OK, or one that begins or ends with a blank, which a digest would trim;
 *   - a notice that isn't a line of its record, or of which an earlier record would be heard; under UR +CSQ an Ok with the payload +CSQ: 17,99, which is a notice;
 *   - a payload, or a number, with a kind that has none, or none where it has one; a code over 65,535 and a prompt over 255, which are never cut;
 *   - any other kind, and what has over WX_LONGEST bytes.
 * Under the empty table nothing else is: every code up to 65,535 and every line above can be written, of the prompts > and @, and an Ok whose payload has at most
 * 4,086 bytes, begins and ends with no blank (space, tab, LF, form feed, CR), and leaves no line OK in what is written but the last.
 * All this is of one answer alone. ERROR and an Ok behind it in one piece are heard as an Ok (docs/WAITING.md has which answers nothing behind them changes).
 * bindings/c/say.c is a program that prints them.
 *
 * The stack, as it was measured on x86-64; no proof covers it, and where it is too short the program ends by SIGSEGV. A digest goes from level to level of the retry in
 * a loop: on all that was tried it took 1.7 KB at most, an advance or a write 2.5 KB, and one with findings 3.5 KB. wx_say digests the bytes that it writes, in 4 KB of its
 * own: 5.3 KB. WX_NUMERIC takes less than either. wx_list_read recurses once for each element, of which there are at most WX_ELEMENTS: it took 144 bytes for each, and 37
 * KB at most, whatever the payload. Give a thread 8 KB, 12 KB where it writes answers, and 64 KB where it reads lists (the tests run that).
 *
 * Work, as docs/BENCHMARKS.md has it, which was counted with an older kit: a digest's grows with its input, and no faster: twice the input takes at most 2.2 times
 * the instructions (at most some 1.2 million for 4,096 bytes). An advance or write digests again all that is in the buffer, so that a stream handed over in pieces
 * that finish nothing costs the square of its length: 1,024 bytes one by one took 29 million instructions, and 4,096 took 448 million. By wx_feed_write they took
 * 1.2 and 4.9 million: about a thousand for a byte that finishes nothing, however many lie before it, and a search by blocks of 16 bytes where no CRLF came yet,
 * or with WX_CONNECT. It digests again all that is in the buffer where the byte may finish something; with WX_NUMERIC; under a table that isn't empty, once a line
 * has ended; and behind a line that is no error for its code, such as +CME ERROR: 65536.
 * WX_NUMERIC walks over its input once; the same limit holds for it, and for wx_list_read, which walks over a payload that it accepts twice: it judges all of it
 * before it writes. An answer of 1,024 bytes with 31 operators took 55,000. wx_say costs a digest of the bytes that it writes, and clearing 4 KB.
 *
 * Licence: Apache-2.0 (see LICENSE and NOTICE).
 */
#ifndef WALUMBEEX_H
#define WALUMBEEX_H

#include <stdbool.h>
#include <stddef.h>
#include <stdint.h>

#ifdef __cplusplus
extern "C" {
#endif

/* The version of this header: one more whenever a function's parameters, an array's length or the meaning of a number in one changes. An archive of another version
 * may take an array for longer than it is, so compare before any other call. It stays where a function is added: a program that calls it doesn't link with an archive
 * that lacks it.
 * Version 2: a numeric error has its digits.
 * Version 3: wx_digest, wx_ingress_advance and wx_ingress_write take a digester, in front of the table; a longer CONNECT line has its text, at out[7] and out[8] of
 * wx_digest; WX_OUT, 7 before, is 9.
 * Version 4: a third digester, WX_NUMERIC; its number, 2, read as WX_VERBOSE before. A notice's number may be WX_RING.
 * Version 5: the slot has a serial number, WX_SERIAL; WX_NUMBERS, 9 before, is 10. wx_slot_reset takes the next one and may be refused with WX_REPEATED;
 * wx_slot_lookup has it at out[4]. A state of nine numbers that was kept is one of ten with 0 behind it.
 * Version 6: a notice has up to 1,024 bytes, 128 before; WX_RECORD, 132 before, is 1029, and a record has the mark UX and a length of two bytes. wx_queue_convert,
 * which may be refused with WX_TOO_FEW, makes such a queue of one that was kept. Added to it since: wx_list_read; wx_feed_advance, wx_feed_write and
 * wx_findings_start; wx_say. */
#define WX_VERSION 6u

/* What a function that returns uint32_t returns (but wx_version): 0, or the number of the refusal. Of those that a call can give, the lowest is given; of
 * wx_list_read the one whose fault stands leftmost, and of two at one place the lowest.
 * A refusal of 1 to 4, of 6 to 9, of 13 or of 15 to 17 leaves every number and byte as it stood, but for out[0] at WX_BAD_TABLE and at 6 to 9. */
#define WX_DONE 0u      /* not refused */
#define WX_TOO_LONG 1u  /* the input or the ingress buffer is over WX_LONGEST bytes */
#define WX_BAD_TABLE 2u /* the table breaks a rule; out[0] is the first faulty record's number (64 for a 65th record);
                           with WX_NUMERIC: the table isn't empty, whatever its bytes; out[0] is 0 */
#define WX_BAD_STATE 3u /* END is past the buffer, LEN past the slot's memory, START or COUNT outside its bounds,
                           the findings are about more or fewer bytes than END,
                           or the record to be taken, or one to be converted, has a wrong mark or length */
#define WX_NO_ROOM 4u   /* the commit is more than the room behind END */
#define WX_FULL 5u      /* a notice of 1 to 1,024 bytes meets a full queue: the earlier steps are done, the notice and what lay
                           with it are still in the buffer */
#define WX_MALFORMED 6u /* no parameter list: out[0] is the place of the first byte (or the end) at which the grammar can't go on */
#define WX_TOO_DEEP 7u  /* a bracket within WX_DEEPEST brackets; out[0] is its place */
#define WX_TOO_LARGE 8u /* a number over 4,294,967,295, zeros in front aside; out[0] is the place of its first digit */
#define WX_TOO_MANY 9u  /* over WX_ELEMENTS elements; out[0] is the place of the first one over */
#define WX_TOO_FEW 13u  /* the new memory holds fewer records than the old queue holds */
#define WX_REPEATED 15u /* the serial number of a reset is the one already in force */
#define WX_NOT_READ_BACK 16u /* an answer that wouldn't be heard as it is: it is of a kind that isn't written, or its bytes would be digested as something else */
#define WX_TOO_SHORT 17u     /* the output memory is shorter than the answer */

/* The limits. A code of +CME ERROR or +CMS ERROR is at most 65,535: a line with a larger one is no error. */
#define WX_LONGEST 4096        /* the longest input of a digest, and the longest ingress buffer; a piece given to wx_ingress_write may be longer */
#define WX_TABLE_RECORDS 64    /* the most records of a table */
#define WX_LONGEST_TEXT 32     /* the longest text of a record */
#define WX_RECORD 1029         /* a record of the queue's memory: the mark UX, the table number, the payload's length in two bytes, the high one first,
                                  1,024 bytes of payload */
#define WX_RECORDS 16          /* the most notices that a queue holds, however long its memory is */
#define WX_LONGEST_NOTICE 1024 /* a longer payload is counted as a lost notice; so is an empty one */
#define WX_OLD_RECORD 132      /* a record of the old form: the mark UR, the table number, the payload's length, 1 to 128, in one byte, 128 bytes of payload */
#define WX_ELEMENTS 256        /* the most elements of a parameter list, lists and empty places among them */
#define WX_ELEMENT 6           /* the numbers of an element, below */
#define WX_DEEPEST 4           /* within how many brackets an element may stand */

/* The digester that a call uses, by its number; any other number reads as WX_VERBOSE.
 *
 * WX_CONNECT: V.250 lets text follow CONNECT. A CONNECT line is CRLF, `CONNECT` and CRLF, or, longer, CRLF, `CONNECT`, one space and everything through the next
 * CRLF; the first of either counts. The text is what stands between that space and that CRLF, as it came: it isn't trimmed, and a lone CR or LF may be in it. An empty
 * one is not told apart from a bare line. `CONNECT` with a tab behind it, or with the text right behind it, is no CONNECT line, and without its CRLF none is finished.
 * A custom success and OK rank before CONNECT: where one of them is there, a longer line before it is in its payload, and there is no text.
 *     \r\nCONNECT 9600\r\n              WX_OK with the text 9600; with WX_VERBOSE nothing that is finished
 *     \r\nCONNECT 9600\r\n\r\nOK\r\n    WX_OK with the payload CONNECT 9600 and no text, with WX_VERBOSE too
 * The text is for callers of wx_digest. It is a part of the input, so that through the ingress it is gone with the bytes consumed; the slot doesn't hold it. The
 * ingress takes the digester too, so that a longer CONNECT line frees a client that waits.
 *
 * WX_NUMERIC: a modem in V0 ends an answer with a decimal code and CR, no CRLF before it, and information text with CRLF. The codes are OK 0, CONNECT 1, RING 2,
 * NO CARRIER 3, ERROR 4, NO DIALTONE 6, BUSY 7 and NO ANSWER 8. Nothing else is heard: no prompt, and no `+CME ERROR` (with AT+CMEE=0 a modem answers 4 in its
 * place). Its table is the empty one.
 *     0\r                            WX_OK without a payload
 *     0\r\n                          nothing that is finished: a line of information
 *     AT+CSQ\r+CSQ: 17,99\r\n0\r     WX_OK with the payload +CSQ: 17,99, 22 bytes consumed
 *     4\r                            WX_ERROR
 *     +CSQ: 1\r\n2\r0\r              RING, 11 bytes consumed; what is left, 0\r, is a WX_OK without a payload
 * A CR is lone where no LF stands right behind it; one at the input's end is lone. A line starts at the first byte, behind each CRLF and behind each lone CR. A code
 * is one of these digits at a line start and a lone CR right behind it: `10\r`, `5\r`, ` 0\r` and `\n0\r` are none. The leftmost code is the answer, and is consumed
 * through its CR with all that stands before it; where there is none, the answer is WX_NONE and 0 bytes are consumed.
 * 0 and 1 are WX_OK. Its payload is what stands before the code, from behind the last lone CR there (an echo ends in one) or from the first byte on, trimmed (space,
 * tab, LF, form feed, CR). RING is a WX_NOTICE with the number WX_RING and the digit for its payload; what stood before it is consumed with it and not heard. The
 * other codes are the kinds of their names. There are no digits and no text. */
#define WX_VERBOSE 0u /* document 01's: CONNECT is a bare line */
#define WX_CONNECT 1u /* the same, and it hears the longer CONNECT line */
#define WX_NUMERIC 2u /* the codes of a modem in V0; its table is the empty one */

/* The number of the notice RING by WX_NUMERIC, in the place of a record's: no table has so many. */
#define WX_RING 255u

/* A state: ten numbers. Every array is a state.
 * END, LEN, START and COUNT are taken whole; NUMBER, SLOT_LOST, QUEUE_LOST and SERIAL over 4,294,967,295 read as that.
 * A number that reads already as it is to read stays as it stood, so that a call changes no number but those that it gives another
 * meaning. One that it changes is left in its plain form: 0 or 1 for SIGNALLED, at most 14 for HELD, at most 4,294,967,295 for the
 * four named last.
 * A first state: wx_slot_new, wx_queue_new and wx_ingress_clear on any array. */
#define WX_NUMBERS 10
enum {
    WX_END = 0,        /* where the bytes in the buffer end */
    WX_SIGNALLED = 1,  /* the slot: 0 free, any other number signalled */
    WX_HELD = 2,       /* what the slot holds: 0 to 13 a kind as below, 14 CapacityError; a number over 14 reads as 14 */
    WX_NUMBER = 3,     /* the held answer's number: a CME or CMS code, a prompt byte, a custom error's table number; else 0 */
    WX_LEN = 4,        /* how many bytes of the slot's memory, from its front on, are the held payload or digits */
    WX_SLOT_LOST = 5,  /* answers lost because the slot was signalled; it stays at 4,294,967,295 */
    WX_START = 6,      /* the queue: the place of its oldest record in the ring */
    WX_COUNT = 7,      /* how many records it holds */
    WX_QUEUE_LOST = 8, /* notices lost for a payload of 0 or over 1,024 bytes; it stays at 4,294,967,295 */
    WX_SERIAL = 9      /* the slot's serial number in force, 0 in a new slot; wx_slot_reset gives it the next one */
};

/* Findings, sixteen numbers: how many bytes they are about; the state of a table of transitions behind those bytes; then ends, one past the last byte, 0 for none:
 * of the first OK, CONNECT, ERROR, COMMAND NOT SUPPORT, NO CARRIER, BUSY, NO ANSWER and NO DIALTONE line, of the first +CME ERROR:, +CMS ERROR: and MODEM ERROR:
 * behind a CRLF, of the first NA line, of the last byte that is no blank, and of the last LF. Every array may be handed in; which are genuine stands above. */
#define WX_FINDINGS 16

/* The kinds of an answer. A number over 13 that is handed in as a kind reads as WX_NONE.
 * WX_CME, WX_CMS and WX_UNKNOWN are the numeric errors. Their digits are those of the line as they came, leading zeros included, of which there may be any
 * number: of `+CME ERROR: 0010` the number is 10, and the digits are 0010. Their payload is empty. */
enum {
    WX_NONE = 0,
    WX_OK = 1,           /* OK, CONNECT or a custom success; it has a payload, by a longer CONNECT line a text too */
    WX_PROMPT = 2,       /* number: the prompt byte */
    WX_CME = 3,          /* number: the code of +CME ERROR; it has digits */
    WX_CMS = 4,          /* number: the code of +CMS ERROR; it has digits */
    WX_UNKNOWN = 5,      /* MODEM ERROR; it has digits, and no number */
    WX_NOT_ALLOWED = 6,  /* NA */
    WX_ERROR = 7,        /* ERROR or COMMAND NOT SUPPORT */
    WX_NO_CARRIER = 8,
    WX_BUSY = 9,
    WX_NO_ANSWER = 10,
    WX_NO_DIALTONE = 11,
    WX_CUSTOM = 12,      /* a custom error; number: its record in the table; it has a payload */
    WX_NOTICE = 13,      /* number: its record in the table, or WX_RING; it has a payload */
    WX_CAPACITY = 14     /* in WX_HELD and wx_slot_lookup only: the answer's payload was longer than the slot's memory; digits that are longer
                            are left out, and the error is held */
};

/* An element of a parameter list: six numbers. Its text is what stands in the payload from its place to its end: of a string with its quotes, and its escapes as they
 * came; of a list with its brackets. */
enum {
    WX_ELEMENT_PLACE = 0, /* its first byte, behind its spaces; of an empty one the byte that ends it, or the end of the payload */
    WX_ELEMENT_END = 1,   /* one past its last byte; of an empty one its place */
    WX_ELEMENT_KIND = 2,  /* what it is, as below */
    WX_ELEMENT_DEPTH = 3, /* within how many brackets it stands, 0 to WX_DEEPEST */
    WX_ELEMENT_LOW = 4,   /* a number's value, or the first number of a range; else 0 */
    WX_ELEMENT_HIGH = 5   /* a number's value, or the second number of a range, which may be the lower one; else 0 */
};

/* The kinds of an element. */
enum {
    WX_KIND_EMPTY = 0,  /* nothing stands before the comma, the closing bracket or the end */
    WX_KIND_NUMBER = 1, /* 99 */
    WX_KIND_RANGE = 2,  /* 0-31: one element */
    WX_KIND_STRING = 3, /* "IP" */
    WX_KIND_LIST = 4    /* (0-31,99): its members are elements of their own, behind it */
};

/* What a call answers: it stands at the front of `out`, whose other numbers stay as they were.
 * A refused call answers what stands beside its number above, and no more. */
#define WX_OUT 9

/* The archive's version, to be compared with WX_VERSION. An archive that lacks it is older than version 1. */
uint32_t wx_version(void);

/* Is the token table good?
 * table, table_len: the table's records, as above.
 * out[0]: how many records it has; at WX_BAD_TABLE the first faulty record's number.
 * Refusals: WX_BAD_TABLE. */
uint32_t wx_table_check(const uint8_t *table, size_t table_len, uint64_t out[WX_OUT]);

/* Digests an input once.
 * digester: WX_VERBOSE, WX_CONNECT or WX_NUMERIC; table: the token table, for WX_NUMERIC the empty one.
 * out[0]: the kind; out[1]: its number, 0 where the kind has none; out[2], out[3]: the payload's place in the input and its
 * length; out[4]: the bytes consumed; out[5], out[6]: the digits' place in the input and how many there are, for WX_CME, WX_CMS and
 * WX_UNKNOWN, else 0 and 0; out[7], out[8]: the text's place in the input and its length, for WX_OK by a longer CONNECT line, where the
 * text isn't empty, else 0 and 0. The text ends two bytes, its CRLF, before what is consumed does. At WX_BAD_TABLE out[0] is the first
 * faulty record's number and the others stay.
 * Refusals: WX_TOO_LONG, WX_BAD_TABLE. */
uint32_t wx_digest(uint32_t digester, const uint8_t *table, size_t table_len, const uint8_t *input, size_t input_len,
                   uint64_t out[WX_OUT]);

/* The payload of an answer, its digits or its text, as a part of the input.
 * place, len: out[2] and out[3] of wx_digest for the payload, out[5] and out[6] for the digits, out[7] and out[8] for the text, or any two
 * numbers.
 * out[0], out[1]: the part's place in the input and its length: place and len where they fit, else 0 and 0. */
void wx_payload(const uint8_t *input, size_t input_len, size_t place, size_t len, uint64_t out[WX_OUT]);

/* Makes the slot's six numbers those of a new slot: free, an empty Ok held, nothing lost, the serial number 0. The other numbers stay. */
void wx_slot_new(uint64_t state[WX_NUMBERS]);

/* Signals an answer to the slot.
 * answer: nine numbers as wx_digest leaves them in `out` (kind, number, and seven that aren't used).
 * payload, payload_len: the answer's payload for WX_OK and WX_CUSTOM, its digits for WX_CME, WX_CMS and WX_UNKNOWN (any bytes: they
 * aren't examined); not used for the others.
 * mem, mem_len: the slot's memory. A free slot stores the answer, with these bytes at the memory's front. Where they are longer than
 * the memory, none is stored and LEN is 0: for a payload WX_CAPACITY is held, for digits the error and its number as ever.
 * On a signalled slot the answer is lost and counted; WX_NONE and WX_NOTICE change nothing.
 * Refusals: WX_BAD_STATE. */
uint32_t wx_slot_signal(uint64_t state[WX_NUMBERS], const uint64_t answer[WX_OUT], const uint8_t *payload, size_t payload_len,
                        uint8_t *mem, size_t mem_len);

/* Looks at the slot, which changes nothing.
 * out[0]: 1 where the slot is signalled; then out[1] is what it holds (a kind or WX_CAPACITY), out[2] its number, out[3] the length
 * of its payload or digits and out[4] the serial number that it bears. Of a free slot out[0] is 0 and the others stay.
 * Refusals: WX_BAD_STATE. */
uint32_t wx_slot_lookup(const uint64_t state[WX_NUMBERS], const uint8_t *mem, size_t mem_len, uint64_t out[WX_OUT]);

/* Frees the slot for the command of the next serial number, which it stores, and changes nothing else.
 * serial: any number but the one in force, on a free slot too; a lower one is good, and so is 0, but in a new slot 0 is in force.
 * mem, mem_len: the slot's memory.
 * Refusals: WX_BAD_STATE, WX_REPEATED (both leave everything). */
uint32_t wx_slot_reset(uint64_t state[WX_NUMBERS], uint32_t serial, const uint8_t *mem, size_t mem_len);

/* The payload that a signalled slot holds, or the digits, as a part of the slot's memory.
 * out[0]: its place there, which is 0; out[1]: its length, 0 of a free slot and where LEN is past the memory. */
void wx_slot_payload(const uint64_t state[WX_NUMBERS], const uint8_t *mem, size_t mem_len, uint64_t out[WX_OUT]);

/* Makes the queue's three numbers those of an empty queue with nothing lost. The other numbers stay. */
void wx_queue_new(uint64_t state[WX_NUMBERS]);

/* How many records a memory of len bytes holds: len / WX_RECORD, at most WX_RECORDS. */
size_t wx_queue_capacity(size_t len);

/* Puts a notice into the queue, as the ingress does.
 * mem, mem_len: the queue's memory; number: the notice's table number, or WX_RING; payload, payload_len: its payload.
 * A payload of 0 or over 1,024 bytes is lost and counted, even when the queue is full.
 * Refusals: WX_BAD_STATE, WX_FULL (both leave everything). */
uint32_t wx_queue_put(uint64_t state[WX_NUMBERS], uint8_t *mem, size_t mem_len, uint8_t number, const uint8_t *payload,
                      size_t payload_len);

/* Takes the oldest notice out of the queue, of whose memory no byte changes.
 * out[0]: 1 where there was one; then out[1] is its table number, or WX_RING, and out[2], out[3] are its payload's place in the
 * queue's memory and its length. The bytes are good until the next call that writes to the queue's memory.
 * From an empty queue out[0] is 0, and all else stays.
 * Refusals: WX_BAD_STATE. */
uint32_t wx_queue_take(uint64_t state[WX_NUMBERS], const uint8_t *mem, size_t mem_len, uint64_t out[WX_OUT]);

/* Makes a queue of this version of one of the old form, for a program that restarts (above).
 * old: the state that was kept, of which START, COUNT and QUEUE_LOST alone are read; old_mem, old_mem_len: the memory of that queue,
 * old_mem_len / WX_OLD_RECORD records, at most WX_RECORDS.
 * mem, mem_len: the new queue's memory, not the old one. The records that the old queue holds are written from its front on, oldest first,
 * with their table numbers and payloads. No other byte of it changes, those behind a payload in its record included.
 * state: START becomes 0, COUNT and QUEUE_LOST those of the old queue. The other numbers stay.
 * A queue that holds nothing is converted into any memory, also into one of 0 bytes.
 * Refusals: WX_BAD_STATE, for START and COUNT by the old memory, and for every record that is held; WX_TOO_FEW (both leave everything). */
uint32_t wx_queue_convert(const uint64_t old[WX_NUMBERS], const uint8_t *old_mem, size_t old_mem_len, uint64_t state[WX_NUMBERS],
                          uint8_t *mem, size_t mem_len);

/* Adds `commit` bytes, which the caller has put into buf from END on, and digests, delivers and moves until nothing more is consumed.
 * digester: WX_VERBOSE, WX_CONNECT or WX_NUMERIC; table: the token table, for WX_NUMERIC the empty one; buf: the ingress buffer;
 * slot_mem, queue_mem: the memories of slot and queue.
 * out[0]: at WX_BAD_TABLE the first faulty record's number; else out stays.
 * Refusals: WX_TOO_LONG, WX_BAD_TABLE, WX_BAD_STATE, WX_NO_ROOM, WX_FULL. After WX_FULL take a notice, then advance by 0. */
uint32_t wx_ingress_advance(uint64_t state[WX_NUMBERS], size_t commit, uint32_t digester, const uint8_t *table, size_t table_len,
                            uint8_t *buf, size_t buf_len, uint8_t *slot_mem, size_t slot_mem_len, uint8_t *queue_mem,
                            size_t queue_mem_len, uint64_t out[WX_OUT]);

/* Copies as much of the piece as fits into buf, advances, and goes on until the piece is used up or there is no room. An empty piece digests nothing.
 * piece, piece_len: bytes from the modem, of any length; where the piece ends changes what is heard (above). The others are those of
 * wx_ingress_advance.
 * out[0]: the bytes taken, at WX_FULL too (they are consumed or in the buffer: never offer them again); at WX_BAD_TABLE the
 * first faulty record's number.
 * Refusals: WX_TOO_LONG, WX_BAD_TABLE, WX_BAD_STATE, WX_FULL. */
uint32_t wx_ingress_write(uint64_t state[WX_NUMBERS], const uint8_t *piece, size_t piece_len, uint32_t digester,
                          const uint8_t *table, size_t table_len, uint8_t *buf, size_t buf_len, uint8_t *slot_mem,
                          size_t slot_mem_len, uint8_t *queue_mem, size_t queue_mem_len, uint64_t out[WX_OUT]);

/* Drops what is in the buffer: END becomes 0, and the other numbers stay. Findings beside it are to be made zeros. */
void wx_ingress_clear(uint64_t state[WX_NUMBERS]);

/* wx_ingress_advance with findings (above).
 * findings: about the bytes in the buffer; after WX_DONE and WX_FULL about those that are there then. The others are those of wx_ingress_advance.
 * With genuine findings it answers, consumes and leaves what that does.
 * Refusals: as of that, and WX_BAD_STATE also where findings[0] isn't END, on a commit of 0 too. 1 to 4 leave the findings too. */
uint32_t wx_feed_advance(uint64_t state[WX_NUMBERS], uint64_t findings[WX_FINDINGS], size_t commit, uint32_t digester, const uint8_t *table,
                         size_t table_len, uint8_t *buf, size_t buf_len, uint8_t *slot_mem, size_t slot_mem_len, uint8_t *queue_mem,
                         size_t queue_mem_len, uint64_t out[WX_OUT]);

/* wx_ingress_write with findings, which are those of wx_feed_advance. The others are those of wx_ingress_write.
 * Refusals: as of that, and WX_BAD_STATE also where findings[0] isn't END, on an empty piece too. 1 to 4 leave the findings too. */
uint32_t wx_feed_write(uint64_t state[WX_NUMBERS], uint64_t findings[WX_FINDINGS], const uint8_t *piece, size_t piece_len, uint32_t digester,
                       const uint8_t *table, size_t table_len, uint8_t *buf, size_t buf_len, uint8_t *slot_mem, size_t slot_mem_len,
                       uint8_t *queue_mem, size_t queue_mem_len, uint64_t out[WX_OUT]);

/* Makes the findings those of the bytes in the buffer, whatever they were: after a plain call, after a change by hand, on a state that was kept.
 * state: of which END alone is read; one that is past the buffer counts as its end. */
void wx_findings_start(uint64_t findings[WX_FINDINGS], const uint64_t state[WX_NUMBERS], const uint8_t *buf, size_t buf_len);

/* Reads what stands behind the colon of an answer or a notice as a parameter list (above).
 * payload, payload_len: those bytes, of any length.
 * elements: the memory for the elements. They stand at its front, in order, six numbers each; the rest of it stays as it was.
 * out[0]: how many elements there are, 1 to WX_ELEMENTS; refused, the place of the fault in the payload.
 * Refusals: WX_MALFORMED, WX_TOO_DEEP, WX_TOO_LARGE, WX_TOO_MANY (all leave `elements` as it was). */
uint32_t wx_list_read(const uint8_t *payload, size_t payload_len, uint64_t elements[WX_ELEMENTS * WX_ELEMENT], uint64_t out[WX_OUT]);

/* Writes an answer as a modem would, for a bench that plays the modem (above).
 * table, table_len: the token table under which the answer is to be heard.
 * kind: WX_OK, WX_PROMPT, WX_CME, WX_CMS, WX_ERROR, WX_NO_CARRIER, WX_BUSY, WX_NO_ANSWER, WX_NO_DIALTONE or WX_NOTICE.
 * numbered, number: whether a number goes along, and which: the prompt byte, the code, or the notice's record in the table; the other kinds have none. Where
 * numbered is false, number isn't used.
 * payload, payload_len: of WX_OK and WX_NOTICE; of the others 0 bytes.
 * output, output_len: the memory that it is written to. It stands at the front, and the rest of the memory stays as it was; WX_LONGEST bytes are never too short.
 * out[0]: how many bytes it has; at WX_BAD_TABLE the first faulty record's number.
 * Refusals: WX_BAD_TABLE, WX_NOT_READ_BACK, WX_TOO_SHORT (all leave `output` as it was, the last two `out` too). */
uint32_t wx_say(const uint8_t *table, size_t table_len, uint32_t kind, bool numbered, uint32_t number, const uint8_t *payload,
                size_t payload_len, uint8_t *output, size_t output_len, uint64_t out[WX_OUT]);

#ifdef __cplusplus
}
#endif

#endif
