/* The C boundary of the proved translator (libdeltawobble.a).

   Each call but the stretch answers one word. Bits 32 to 39 are 0 and bits 0 to 31 the value, the bytes
   written where nothing else is said; or bits 32 to 39 are a refusal's number and bits 0 to 31 its place,
   and then nothing was written. Of refusal 12, bits 40 to 51 are the type number wanted, 256 where a form
   is wanted and not one type, and bits 52 to 63 the one found; of every other answer they are 0. A value
   or place of 2^32 or more shows as 2^32 - 1.

   Working memory of fewer than 32,768 numbers is refusal 1, and is not touched; otherwise its first 32,768
   numbers are 0 afterwards, and later ones never change. Any bytes will do, and any lengths: nothing in
   them need be checked first. What C cannot say and a caller keeps: a pointer has the memory of its length
   behind it, aligned for its type, and what a call writes to (out, state, work, results) overlaps nothing
   else that is lent. */
#ifndef DELTAWOBBLE_H
#define DELTAWOBBLE_H
#include <stdbool.h>
#include <stddef.h>
#include <stdint.h>

enum {
    DELTAWOBBLE_ROOM = 57728,    /* output bytes that always do for a netlist; 41344 in plain kinds */
    DELTAWOBBLE_MODULE = 395400, /* .. and for a module of Verilog */
    DELTAWOBBLE_SHEET = 16384,   /* .. and for the sheet of a text */
    DELTAWOBBLE_NODES = 2048,    /* places that always do for its nodes */
    DELTAWOBBLE_MEMORY = 32768   /* numbers of working memory that are needed */
};

/* Translates a sheet to its full or lean netlist, in the plain kinds 21 and 22 or with the node that
   made each element, kinds 25 and 26. With card, the card's profile is checked too, after 16 and before 17:
   27 the root's type, 28 a kept ring point, 29 a part's output that nobody reads. */
uint64_t deltawobble_translate(const uint8_t *sheet, size_t sheet_len, uint8_t *out, size_t out_len,
                               uint16_t *work, size_t work_len, bool lean, bool plain, bool card);

/* Sheets laid end to end, each of its length: the netlists stand one behind the other, and each sheet has its
   result, such a word as above. A refused sheet uses nothing of the output and stops nothing. The value is the
   number of bytes of the output that were used. Refusal 24, place 0: the lengths do not add up to the bytes
   lent, or there are fewer places for results than lengths; then nothing is touched. */
uint64_t deltawobble_batch(const uint8_t *sheets, size_t sheets_len, const uint32_t *lengths, size_t lengths_len,
                           uint8_t *out, size_t out_len, uint64_t *results, size_t results_len,
                           uint16_t *work, size_t work_len, bool lean, bool plain, bool card);

/* Checks a netlist from outside, in kinds 21 to 24, a full or a lean one. 0 where it is accepted; else bits 32
   to 39 are the refusal's number (1, 21, 22, 23), and bits 0 to 31 its place. A netlist may be longer than
   4,294,967,295 bytes: an offset from there on shows as that number. */
uint64_t deltawobble_check(const uint8_t *net, size_t net_len, uint16_t *work, size_t work_len, bool lean);

/* Writes the lean netlist of a sheet as one module of structural Verilog. After 16, 18: a kept ring point, place
   the lowest such input; then 17. */
uint64_t deltawobble_verilog(const uint8_t *sheet, size_t sheet_len, uint8_t *out, size_t out_len,
                             uint16_t *work, size_t work_len);

/* The stretch of the sheet that holds a node: start in the upper half, length in the lower. */
uint64_t deltawobble_stretch(const uint8_t *sheet, size_t sheet_len, size_t node);

/* Runs a recorded trace through the lean netlist of a sheet, one byte a bit: lent are the bits of the
   input pins, in pin order, tick after tick, and a start bit for each register by rising terminal;
   written are the bits of the output pins. After 16, 19: a ring that passes through no register, place the lowest
   input on any; 20, place 0: bits not of the exact number, or a byte above 1; then 17. A tick count has 16 bits:
   C cuts a larger one to its lowest 16, so a caller with more than 65,535 ticks makes more than one call. */
uint64_t deltawobble_run(const uint8_t *sheet, size_t sheet_len, const uint8_t *inputs, size_t inputs_len,
                         const uint8_t *starts, size_t starts_len, uint8_t *out, size_t out_len,
                         uint16_t *work, size_t work_len, uint16_t ticks);

/* Runs sixteen recorded traces at once, one in each bit of a number: bit k of every number of inputs, state and out
   belongs to trace k. Lent are the numbers of the input pins, in pin order, tick after tick, and one for each register
   by rising terminal, the bits that it shows at tick 0; written are the numbers of the output pins, and into state the
   bits that the registers would show at the next tick, so that a call with that state goes on where this one ended.
   Refusals as of deltawobble_run, and every 16-bit number will do; 17's place, the value and the lengths are counted in
   numbers. On a refusal neither out nor state changes. A longer recording is run window by window: a tick count has 16
   bits here too, and of a larger one C would leave the lowest 16. Nothing in a state says of which sheet it is. */
uint64_t deltawobble_lanes(const uint8_t *sheet, size_t sheet_len, const uint16_t *inputs, size_t inputs_len,
                           uint16_t *state, size_t state_len, uint16_t *out, size_t out_len,
                           uint16_t *work, size_t work_len, uint16_t ticks);
/* Searches all states of the registers of a sheet's lean netlist for a tick at which output pin `pin`, counted from 0
   among the output pins, can show 1. starts: a byte for each register by rising terminal, 0 or 1 for that bit, 2 for
   either. Accepted with k: it has 0 at every tick of every record, of any length and with any inputs, and k states were
   met. Or 40 at the first tick t at which some record has 1; where the output has room for registers + (t + 1) · input
   pins bytes, start bits and then input bits, tick after tick, of a trace that shows it: what deltawobble_run takes with
   t + 1 ticks. After 16, 19 as above; 41: more than 20 registers, 42: more than 12 input pins, place how many; 43, place
   0: start bytes not of the exact number, or one above 2; 44: no such output pin, place how many there are; 45: trail or
   queue shorter than 2^registers numbers, which is the place. Both are left all 0, whatever is answered. */
uint64_t deltawobble_never(const uint8_t *sheet, size_t sheet_len, const uint8_t *starts, size_t starts_len,
                           uint32_t *trail, size_t trail_len, uint32_t *queue, size_t queue_len,
                           uint8_t *out, size_t out_len, uint16_t *work, size_t work_len, uint16_t pin);

/* Writes a first-edition sheet whose lean netlist has the parts of a netlist with the same drivers. The
   netlist has 1 to 16 parts, no points and at most 24 undriven inputs; lean says if it is a lean one.
   393 bytes of output always do. */
uint64_t deltawobble_back(const uint8_t *net, size_t net_len, uint8_t *out, size_t out_len,
                          uint16_t *work, size_t work_len, bool lean);

/* Writes the sheet of a text in the notation (docs/NOTATION.md), and to places, for each of its nodes in the order of
   the sheet, the offset of the word in the text that the node came from. After 1: 30, place 0: more than 65,535 bytes;
   31 a byte that begins no word; 32 a word that the grammar does not expect; 33 a name that means nothing there; 34 a
   limit is passed; 35 sides whose sorts do not fit the type; 36 a clause that can never be meant: the place of 31 to 36
   is an offset of the text. Then 17 as in every call, place the bytes that are needed; then 37: fewer numbers in places
   than nodes, place how many there are. DELTAWOBBLE_SHEET bytes and DELTAWOBBLE_NODES numbers always do. */
uint64_t deltawobble_make(const uint8_t *text, size_t text_len, uint8_t *out, size_t out_len,
                          uint16_t *places, size_t places_len, uint16_t *work, size_t work_len);
#endif
