/*
 * Wenditsal for C and C++: a 2D engine that takes batches of register commands from up to four clients through one ring and draws into one
 * memory. Link libwenditsal.a. It needs C99's <stdint.h>, and of the C library memcpy and memset alone.
 *
 * A server sets up an engine, opens its clients, and then submits batches and runs them, in any order and as long as it likes:
 *
 *     static uint8_t engine[WENDITSAL_ENGINE_SIZE], ring[4096], memory[65536];
 *     uint32_t client, ticket;
 *     struct wenditsal_completion done;
 *
 *     if (wenditsal_set_up(engine, sizeof engine, sizeof ring, sizeof memory, 16384, WENDITSAL_RESET_SRC_OVER) == 0
 *         && wenditsal_open(engine, sizeof engine, 16384, 12288, &client) == 0
 *         && wenditsal_submit(engine, sizeof engine, ring, sizeof ring, client, batch, batch_size, &ticket) == 0
 *         && wenditsal_run(engine, sizeof engine, ring, sizeof ring, memory, sizeof memory, &done) == 0)
 *         printf("batch %u: status %08X, fault %u\n", done.ticket, done.status, done.fault);
 *
 * Who owns what. All memory is the caller's: the engine record, the ring, the memory that is drawn into, batches, and what an answer is written
 * to. A call borrows what it is handed until it returns; the library allocates nothing and keeps nothing between calls. An engine is its record,
 * its ring and its memory together: hand the same three to every call, and change neither record nor ring in between. Memory may be read
 * and written between calls (a server fills the common area so).
 *
 * Threads. The library has no state of its own. Calls on different engines may run at the same time; calls on one engine must follow each other,
 * by whatever lock the caller has.
 *
 * What the caller owes, in every call:
 *   - each pointer is not null, also where its size is 0, and is good for its size: a buffer for the size that follows it, a uint32_t or a
 *     structure for its own size and aligned for it. Buffers need no alignment;
 *   - what a call writes (all that is not const) lies apart from everything else that is handed to the same call.
 * Nothing else is asked. Any numbers and any bytes may be handed in, and sizes that do not fit each other are answered as refusals.
 */
#ifndef WENDITSAL_H
#define WENDITSAL_H

#include <stddef.h>
#include <stdint.h>

#ifdef __cplusplus
extern "C" {
#endif

/*
 * ---- Refusals
 *
 * Every call but wenditsal_play returns the refusal's number, 0 if it was accepted. A refused call leaves every byte of record, ring, memory and
 * buffer as it was, and writes zeros to what it would have answered. Of several refusals that hold, the first in this table is returned:
 *   11  set up           engine_size is not WENDITSAL_ENGINE_SIZE
 *   11  open, submit, begin, piece, cancel, run, pending, close
 *                        the engine record is none, or breaks a rule (below)
 *   10  submit, begin, piece, run, close
 *                        the ring (run: or the memory; close: the memory) is not of the length that was set up
 *    1  set up           ring length 0, over 32,768, or no multiple of 128
 *    2  set up           memory length over 16,777,216, or common length over memory length
 *    3  open             four clients are open
 *    4  open             window empty, past memory's end, or sharing a byte with common or another window
 *    5  submit, begin, piece, cancel, pending, close
 *                        no such client
 *   13  submit, begin    a batch is being handed over by pieces
 *   14  piece, cancel    none is being handed over by this client, or the piece is longer than what is left of it
 *   18  close            a batch of the client is ready, or one is being handed over by it
 *    6  submit, begin    batch length 0, no multiple of 4, or over the ring length
 *    7  submit, begin    no free slot: eight batches are ready
 *    8  submit, begin    fewer free bytes in the ring than the batch has
 *    9  run              no batch is ready
 *   15  encode tint      score NaN or outside 0 to 1
 *   24  encode, encode shaded, encode tint
 *                        a field that its register's rule forbids
 *   12  encode, encode tint
 *                        buffer under WENDITSAL_TASK_SIZE bytes
 *   12  encode shaded    buffer under WENDITSAL_SHADED_TASK_SIZE bytes
 */
#define WENDITSAL_RING_LENGTH 1
#define WENDITSAL_MEMORY_LENGTH 2
#define WENDITSAL_FOUR_CLIENTS 3
#define WENDITSAL_BAD_WINDOW 4
#define WENDITSAL_NO_CLIENT 5
#define WENDITSAL_BATCH_LENGTH 6
#define WENDITSAL_NO_SLOT 7
#define WENDITSAL_NO_ROOM 8
#define WENDITSAL_NOTHING_READY 9
#define WENDITSAL_OTHER_LENGTH 10
#define WENDITSAL_BAD_ENGINE 11
#define WENDITSAL_SHORT_BUFFER 12
#define WENDITSAL_HAND_OVER_OPEN 13
#define WENDITSAL_NO_HAND_OVER 14
#define WENDITSAL_BAD_SCORE 15
#define WENDITSAL_CLIENT_BUSY 18
#define WENDITSAL_FORBIDDEN_FIELD 24

/*
 * ---- Batches
 *
 * A batch is groups of little-endian words of 32 bits: a header, and the words for the registers at its offset, offset + 4, ..  A header has
 * the offset in bits 31:16, the number of words that follow in 15:2, and the task end in 0. All registers are at reset at the start of every
 * batch, 0 but 0x090, which is 0x00000B01 or 0x00001300 by the engine's reset rule (below), and stay from task to task inside it. Registers and
 * their allowed bits, all others zero:
 *   0x010 source control         31:24 global alpha, 23:22 alpha mode (0 pixel's, 1 global, 2 (pixel's x global + 127) / 255), 14:8 format,
 *                                7 V flip, 6 H flip, 5:4 quarter turns clockwise, after the flips, 3:2 mode (0 buffer, 1 colour,
 *                                2 shaded along x, 3 shaded along y), 0 enable
 *   0x050 destination control    31:24 global alpha, 23:22 alpha mode, 14:8 format, 0 enable
 *   0x100 output control         14:8 format
 *   0x014, 0x054, 0x104 size     28:16 height, 12:0 width, of source, destination, output
 *   0x018, 0x058, 0x108 stride   15:0, in bytes
 *   0x020, 0x060, 0x110 address  all bits, in bytes from memory's start
 *   0x01C colour                 all bits: A, R, G, B from bit 31 down
 *   0x030, 0x034, 0x038, 0x03C steps of A, R, G, B
 *                                24:0 signed, in two's complement, the low 16 a fraction
 *   0x090 blending               17 premultiplied, 13:11 source factor, 10:8 destination factor, 0 blend on
 * Formats: 0x00 ARGB8888 (bytes B, G, R, A), 0x08 RGB888 (B, G, R), 0x0E RGB565 (low byte first). Alpha reads as 255 where a format has none.
 * Factors: 0 is 0, 1 is 255, 2 sa, 3 255 - sa, 4 da, 5 255 - da, with sa and da the alphas after the alpha modes.
 * Blending on, each of A, R, G, B becomes the lesser of 255 and (s x fs + d x fd + 127) / 255; off, it is the source's, and alpha modes are
 * not used. Premultiplied and blending on, before the alpha modes each of the source's R, G, B, c, becomes the lesser of 255 and
 * (c x T + 32,768) / 65,536, with T = 16,711,680 / a for the pixel's alpha a, and 0 where a is 0; a stays.
 *
 * Shaded, a channel of the source pixel i places along x or along y is the colour's plus i steps, in an exact sum, rounded downward also below
 * zero, then held to 0..255. Places count from 0 in the source's own picture, before flips. A step of minus 1/65,536 takes 10 to 9 at place 1.
 *
 * ---- Faults
 *
 * The first fault ends a batch: the tasks before it stand, and nothing after them is drawn. It is looked for in this order: of a header 20, 21;
 * then of each word 23, 24; after a task's last group 25 to 28, the lowest first; after the last group 22. Its place is a byte offset in the
 * batch. The status is that of the table, with the number of the tasks that stand in the upper half: two good tasks and then 23 give 0x00020002.
 *    no  place      status      when
 *   20  header     0x00000002  header bit 1, 16 or 17 set
 *   21  header     0x00000100  group length 0 or past the batch's end
 *   22  header     0x00000100  last group not task end
 *   23  word       0x00000002  offset not writable
 *   24  word       0x00000002  bit or code not allowed
 *   25  task end   0x00000002  source or output (and, blending, destination) has a side outside 1 to 4,096, a stride no multiple of 8 or
 *                              under width x bytes a pixel; source disabled; destination disabled while blending
 *   26  task end   0x00000002  turn where the source is no buffer; output size not the turned source size; blending, destination size not output size
 *   27  task end   0x00000002  span not wholly in the client's window, or, for what is read, wholly in common
 *   28  task end   0x00000002  source and output meet; blending, destination and output meet, unless address, stride and format are equal
 * "Task end" is the header of the group that ends the task. A span runs from the address over stride x (height - 1) + width x bytes a pixel.
 * Two surfaces meet if a byte lies in rows of both; where their strides differ, if their spans share one. In modes 1 to 3 the source has no
 * stride, format or span. A faultless batch has status tasks x 65,536 + 1, fault 0 and place 0.
 */
#define WENDITSAL_ARGB8888 0x00
#define WENDITSAL_RGB888 0x08
#define WENDITSAL_RGB565 0x0E

/*
 * ---- The engine record
 *
 * WENDITSAL_ENGINE_SIZE bytes that set up fills and the other calls read and write. They may be copied, stored and sent to another machine. They
 * are 68 little-endian words of 32 bits, by number:
 *    0  ring length      1  memory length    2  common length     3  reset rule: 0 or 1
 *    4  zero             5  read offset      6  next ticket       7  zero
 *    8  four clients of four words each, by their ids: window start, window length, batches ready, 1 if it is open and 0 if it is not
 *   24  eight slots of five words each: 1 if a batch is ready in it and 0 if it is free, client, ticket, offset in the ring, length; of a free
 *       slot all five are zero
 *   64  the batch that is being handed over by pieces: client, slot, total length, bytes so far; with none all four are zero
 * The words that are zero are kept for later, and a record in which one is not, with a third reset rule, or with a client that is neither open nor
 * not, is none. A record has this one form: two records are the same exactly if their bytes are. The other three words of a client that is not
 * open may be any: no call looks at them.
 *
 * Its rules: the lengths and the open windows are such as set up and open accept; the read offset is a multiple of 4 below the ring length; the
 * ready batches lie end to end from it in the order of their tickets, their lengths such as submit accepts, in all no more than the ring, each
 * of an open client; their tickets follow each other up to the one before the next; each open client counts its ready batches; the batch
 * that is being handed over is of an open client, its length such as submit accepts and with the others no more than the ring, its bytes so far
 * fewer than that length, and its slot one of the eight that no ready batch has. Every call checks all of them. There is no checksum: a damaged
 * record that keeps the rules is taken as it is.
 */
#define WENDITSAL_ENGINE_SIZE 272

/*
 * The reset rule: what register 0x090, blending, holds at the start of every batch. It is chosen at set up, and no call changes it.
 *   WENDITSAL_RESET_SRC_OVER   0x00000B01: tasks blend by SRC_OVER until their batch writes 0x090, and 25 to 28 judge their destination. For new
 *                              engines: whoever leaves 0x090 alone keeps the page's opacity.
 *   WENDITSAL_RESET_UNBLENDED  0x00001300: blending is off until their batch turns it on. For what was written for it, as replay files of version 1.
 * 0 is the second, any other number the first, so that there is no third.
 */
#define WENDITSAL_RESET_UNBLENDED 0
#define WENDITSAL_RESET_SRC_OVER 1

/*
 * Sets up an engine for a ring of ring_length and a memory of memory_length bytes, of which the first common_length are common: every client may
 * read there and none may draw. Fills engine; what it held before does not matter. No client is open, no batch ready, the next ticket is 0.
 * Refusals: 11, 1, 2.
 */
uint32_t wenditsal_set_up(
    uint8_t *engine,
    size_t engine_size,
    size_t ring_length,
    size_t memory_length,
    size_t common_length,
    uint32_t reset_rule);

/*
 * Opens a client with the length bytes of memory from start on as its window, in which it may draw and from which it may read. Answers its id in
 * *client: the lowest of 0, 1, 2, 3 that is free. The window may lie across those of clients that were closed. No byte of memory changes.
 * Refusals: 11, 3, 4.
 */
uint32_t wenditsal_open(uint8_t *engine, size_t engine_size, uint32_t start, uint32_t length, uint32_t *client);

/*
 * Copies a client's batch into the ring behind the newest one and makes it ready. Answers its ticket in *ticket: 0, 1, 2, .. in the order of
 * submission, going on from 4,294,967,295 to 0. What the batch says is not looked at until it is run, and it may be changed or freed at once.
 * Refusals: 11, 10, 5, 13, 6, 7, 8.
 */
uint32_t wenditsal_submit(
    uint8_t *engine,
    size_t engine_size,
    uint8_t *ring,
    size_t ring_size,
    uint32_t client,
    const uint8_t *batch,
    size_t batch_size,
    uint32_t *ticket);

/*
 * Batches handed over by pieces, for clients with little memory: begin with the total length, then pieces of any length, zero too. The batch
 * holds its slot and its room in the ring from the beginning on; the last piece makes it ready. One such hand-over at a time, whichever client's:
 * meanwhile runs go on, and another begin or a submit is refused with 13. With no other call between, every cutting gives the record, the ring
 * and the ticket that a whole submit gives.
 */

/*
 * Begins a batch of `total` bytes. The ring is only asked for its length. Answers nothing.
 * Refusals: 11, 10, 5, 13, 6, 7, 8.
 */
uint32_t wenditsal_begin(
    uint8_t *engine,
    size_t engine_size,
    const uint8_t *ring,
    size_t ring_size,
    uint32_t client,
    size_t total);

/* What a piece answers: with last 0 the bytes still to come, with last 1 the batch's ticket. Two words of 32 bits, one after the other. */
struct wenditsal_progress {
    uint32_t last;
    uint32_t value;
};

/*
 * Copies the next piece of the client's batch into the ring; the piece that brings the last byte makes the batch ready, as submit does.
 * Refusals: 11, 10, 5, 14.
 */
uint32_t wenditsal_piece(
    uint8_t *engine,
    size_t engine_size,
    uint8_t *ring,
    size_t ring_size,
    uint32_t client,
    const uint8_t *piece,
    size_t piece_size,
    struct wenditsal_progress *progress);

/*
 * Drops the client's unfinished batch and frees its slot and its room; the bytes that were copied stay in the ring. Answers nothing.
 * Refusals: 11, 5, 14.
 */
uint32_t wenditsal_cancel(uint8_t *engine, size_t engine_size, uint32_t client);

/* What run answers; fault and place are 0 without a fault. Five words of 32 bits, one after the other. */
struct wenditsal_completion {
    uint32_t client;
    uint32_t ticket;
    uint32_t status;
    uint32_t fault;
    uint32_t place;
};

/*
 * Takes the oldest ready batch, whichever client's it is, judges it, draws its tasks into memory, of a faulty batch those before the fault, and
 * frees its slot and its room in the ring. A faulty batch is no refusal: 0 is returned, and the fault is in *completion. No byte changes outside
 * the output rows of the tasks that are drawn, and none outside its client's window.
 * Refusals: 11, 10, 9.
 */
uint32_t wenditsal_run(
    uint8_t *engine,
    size_t engine_size,
    const uint8_t *ring,
    size_t ring_size,
    uint8_t *memory,
    size_t memory_size,
    struct wenditsal_completion *completion);

/*
 * Answers how many batches of a client are ready in *count. Changes nothing.
 * Refusals: 11, 5.
 */
uint32_t wenditsal_pending(const uint8_t *engine, size_t engine_size, uint32_t client, uint32_t *count);

/*
 * Closes a client, if it has no ready batch and hands over none: its window is filled with zeros, and its id and its window are free for the next
 * opening. No other byte of memory and none of the ring changes; tickets go on. Answers nothing.
 * Refusals: 11, 10, 5, 18.
 */
uint32_t wenditsal_close(uint8_t *engine, size_t engine_size, uint8_t *memory, size_t memory_size, uint32_t client);

/* ---- The encoder */

/* A batch of one task has so many bytes. */
#define WENDITSAL_TASK_SIZE 80

/* And in the second form, with steps, so many. */
#define WENDITSAL_SHADED_TASK_SIZE 100

/* A surface's fields of the registers (above): a rectangle of pixels in memory. */
struct wenditsal_surface {
    uint32_t width;
    uint32_t height;
    uint32_t stride;
    uint32_t address;
    uint32_t format;
};

struct wenditsal_source {
    struct wenditsal_surface surface;
    uint32_t alpha_mode;
    uint32_t global_alpha;
    /* 0 or 1 */
    uint32_t flip_h;
    uint32_t flip_v;
    /* 0 to 3, clockwise */
    uint32_t quarter_turns;
    /* 0 buffer, 1 colour, 2 shaded along x, 3 shaded along y */
    uint32_t mode;
    uint32_t enable;
};

struct wenditsal_destination {
    struct wenditsal_surface surface;
    uint32_t alpha_mode;
    uint32_t global_alpha;
    uint32_t enable;
};

/*
 * A task's fields, each as in its register; any numbers may be handed in. At reset all are 0 but source_factor, destination_factor and blend,
 * which are 1, 3 and 1 by WENDITSAL_RESET_SRC_OVER, and 2, 3 and 0 by WENDITSAL_RESET_UNBLENDED.
 */
struct wenditsal_fields {
    struct wenditsal_source source;
    struct wenditsal_destination destination;
    struct wenditsal_surface output;
    uint32_t colour;
    uint32_t source_factor;
    uint32_t destination_factor;
    uint32_t blend;
    /* 1: the source's colours were multiplied by their alphas */
    uint32_t premultiplied;
};

/*
 * Writes the batch of the one task with these fields to the first WENDITSAL_TASK_SIZE bytes of buffer; the others stay. Such batches put one after
 * the other are a batch of several tasks. Only the registers' own rules are judged here (24): what the fields mean together is judged when
 * the batch is run (25 to 28).
 * Refusals: 24, 12.
 */
uint32_t wenditsal_encode(struct wenditsal_fields fields, uint8_t *buffer, size_t buffer_size);

/*
 * The same in the second form, with the steps of A, R, G and B, to the first WENDITSAL_SHADED_TASK_SIZE bytes of buffer. A step is its register's word: over 25
 * bits, as a negative number of 32 bits is, it is refused (24); take the low 25 bits of a signed number. In modes 0 and 1 steps are kept and
 * not used. wenditsal_encode writes no steps: the task then has those of the task before it in its batch, and as the first of its batch 0.
 * Refusals: 24, 12.
 */
uint32_t wenditsal_encode_shaded(
    struct wenditsal_fields fields,
    uint32_t alpha,
    uint32_t red,
    uint32_t green,
    uint32_t blue,
    uint8_t *buffer,
    size_t buffer_size);

/*
 * Writes the batch of one task that tints a rectangle by a score to the first WENDITSAL_TASK_SIZE bytes of buffer; the others stay. The score says how sure a reader is,
 * from 0 to 1; the surer, the fainter the tint. Its coverage is 255 - a, with a the greatest whole number from 0 to 255 that isn't above
 * score x 255 in float: 0.5 has coverage 128, 1 has 0.
 *
 * The task is in colour mode, by SRC_OVER over what the rectangle holds. Its colour has the coverage for alpha, and each of red, green and
 * blue as (channel x coverage + 127) / 255. The source has the rectangle's size, the destination is the rectangle; both are enabled, and
 * all other fields are 0.
 *
 * -0.0 is a score, since it is 0. A NaN of any kind is none.
 * Refusals: 15, 24, 12.
 */
uint32_t wenditsal_encode_tint(
    float score,
    uint8_t red,
    uint8_t green,
    uint8_t blue,
    struct wenditsal_surface output,
    uint8_t *buffer,
    size_t buffer_size);

/* ---- Flips and turns */

/*
 * Two turns make one. A setting of flips and quarter turns is bits 7:4 of a source control word, register 0x010: 7 V flip, 6 H flip, 5:4
 * quarter turns clockwise, after the flips. Any word may be handed over, a whole control word too: its other bits are not looked at, and
 * they are 0 in what is returned. So a control word is given a composed setting by
 *
 *   control = (control & ~0xF0u) | wenditsal_compose(first, second);
 *
 * wenditsal_compose returns the setting with which one drawing leaves what a drawing with `first`, and then one of what came out with
 * `second`, leaves: the output has the same bytes, for every picture, where the three surfaces have one format, blending is off and no fault
 * comes. It is associative. 0 is neutral: composed with it, on either side, a setting stays as it is.
 *
 * wenditsal_inverse returns the setting that undoes one: composed with it, on either side, it is 0.
 *
 * Two settings draw every picture alike exactly if they are alike or differ in both flips and by two quarter turns: a ^ 0xE0 draws as a does.
 * (Sixteen settings are eight orientations. A picture of 2 by 2 different pixels distinguishes them.)
 */
uint32_t wenditsal_compose(uint32_t first, uint32_t second);
uint32_t wenditsal_inverse(uint32_t setting);

/* ---- A whole list of calls at once */

/*
 * Sets up an engine of its own with the lengths of ring, memory and common and a reset rule, and plays the script on the lent ring and memory, with
 * the answers that the calls above give. Returns how many bytes of answers it wrote; other bytes of the answer buffer stay as they were.
 *
 * The script is a list of calls, numbers little-endian and with no padding:
 *   0x00 open     start u32, length u32
 *   0x01 submit   client u8, length u32, that many bytes
 *   0x02 run
 *   0x03 pending  client u8
 *   0x04 begin    client u8, total length u32
 *   0x05 piece    client u8, length u32, that many bytes
 *   0x06 cancel   client u8
 *   0x07 close    client u8
 * An unknown opcode, or a call that is cut short, ends the list.
 *
 * Every answer is six u32, little-endian: the refusal's number, 0 without one; then, by open: id; by submit: ticket; by run: client, ticket,
 * status, fault, place; by pending: count; by a piece: 0 and the bytes still to come, or, of the last, 1 and the ticket. Unused words are zero.
 * The first answer is set up's own: if it is refused nothing is played, and with no room for it nothing is set up and 0 is returned. A call whose
 * answer would not fit is not played. 11 never comes.
 */
size_t wenditsal_play(
    size_t ring_length,
    size_t memory_length,
    size_t common_length,
    uint32_t reset_rule,
    uint8_t *ring,
    size_t ring_size,
    uint8_t *memory,
    size_t memory_size,
    const uint8_t *script,
    size_t script_size,
    uint8_t *answers,
    size_t answers_size);

#ifdef __cplusplus
}
#endif

#endif
