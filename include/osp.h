/*
 * osp.h - single OSP telegrams and named commands, read, built and dissected,
 * and a modelled chain of lamps that takes telegrams and gives answers.
 *
 * Link with libosp.a. Every function ends with an answer on any bytes and any
 * field values, and is proved against a definition of what it gives back.
 *
 * A telegram is passed as a pointer and a byte count, a lent room as a pointer
 * and its length. The pointers are not null, not even for no bytes, and a room
 * does not overlap an input.
 *
 * Every function but osp_checksum, osp_record_len and osp_reader_position
 * returns its number in the lowest byte, and above it
 *   number 0, done:      the count, how many bytes were written to the front of
 *                        the room (OSP_COUNT);
 *   number 5, checksum:  the checksum worked out in the second byte and the one
 *                        received in the third (OSP_COMPUTED, OSP_RECEIVED),
 *                        which always differ;
 *   any other number:    nothing, zeros.
 * So ask for the number first: the count means something for number 0 alone, and
 * the two checksums for number 5 alone.
 * On a refusal, 1 to 13 (OSP_ERR_*), every byte of the room and of the record
 * stays as it was, but OSP_ERR_CHECKSUM at delivery sets CE on the lamp at place
 * 0, and a refusal of the reader of a capture (1 to 5) is kept in its state,
 * which stays stopped. When done, the bytes past the last written one stay.
 *
 * A chain lies in a record: memory that the caller lends, as docs/RECORD.md
 * describes. Any bytes may be given as a record; what holds no valid chain is
 * refused. Bytes behind the record's end stay.
 */
#ifndef OSP_H
#define OSP_H

#include <stddef.h>
#include <stdint.h>

#ifdef __cplusplus
extern "C" {
#endif

/* The parts of what a function returns: the count for number 0, the two checksums for number 5. */
#define OSP_NUMBER(result) ((result) % 256u)
#define OSP_COUNT(result) ((result) / 256u)
#define OSP_COMPUTED(result) ((result) / 256u % 256u)
#define OSP_RECEIVED(result) ((result) / 65536u % 256u)

/* The numbers given back. */
enum {
    OSP_DONE = 0,
    OSP_ERR_TOO_SHORT = 1,    /* fewer than 4 bytes */
    OSP_ERR_PREAMBLE = 2,     /* preamble is not 1010 */
    OSP_ERR_SIZE_INDEX = 3,   /* size index 5 */
    OSP_ERR_BYTE_COUNT = 4,   /* byte count is not 4 + payload size */
    OSP_ERR_CHECKSUM = 5,     /* checksum differs; OSP_COMPUTED and OSP_RECEIVED have both */
    OSP_ERR_COMMAND = 6,      /* unknown command, or an answer to a command that has none */
    OSP_ERR_CAST = 7,         /* cast not allowed, or init at 000 while a lamp has no address */
    OSP_ERR_PAYLOAD_SIZE = 8, /* payload size wrong for the command */
    OSP_ERR_ROOM = 9,         /* room too small */
    OSP_ERR_RANGE = 10,       /* builder field, duty or fault number out of range, or payload length not listed */
    OSP_ERR_CHAIN = 11,       /* lamp count not 1 to 1007, no valid chain, or a state that no reading of a capture leaves */
    OSP_ERR_INIT = 12,        /* init runs past 3EF */
    OSP_ERR_PLACE = 13        /* no lamp at that place */
};

/* To whom a command goes. */
enum {
    OSP_EVERYONE = 0, /* value 0 */
    OSP_ONE = 1,      /* value: an address, 1 to 1007; of an init, its first address */
    OSP_GROUP = 2     /* value: a group, 0 to 14 */
};

/* The longest telegram, and the longest result of the three functions that take one apart. */
#define OSP_TELEGRAM_MAX 12
#define OSP_RESULT_MAX 12

/* The checksum of n bytes (polynomial hex 2F, start 0, high bit first). */
uint8_t osp_checksum(const uint8_t *s, size_t n);

/*
 * The telegram reader. Refusals 1 to 5, then 9.
 * Writes the address (2 bytes, high byte first), the command, the payload size
 * and the payload.
 */
uint32_t osp_read(const uint8_t *s, size_t n, uint8_t *out, size_t room);

/*
 * The raw builder, of an address up to 1023, a command up to 127 and a payload
 * of 0, 1, 2, 3, 4, 6 or 8 bytes. Refusals 10, then 9. Writes the telegram.
 */
uint32_t osp_build(uint32_t address, uint32_t command, const uint8_t *payload, size_t n, uint8_t *out, size_t room);

/*
 * Acknowledged commands have bit 5 (hex 20) set in their number: 24, 25, 26,
 * 2D, 6B, 6D and 6F. One goes to one lamp, does what its plain form does, and
 * is answered with temperature and status as they stand afterwards; no flag is
 * cleared. A command of 2D is taken by both dissectors below: nothing in its
 * bytes says whether the host sent them, with a group word, or a lamp answered.
 */

/*
 * The command dissector. Refusals 1 to 8, then 9.
 * Writes the command, the cast (OSP_EVERYONE, OSP_ONE, OSP_GROUP), its value
 * (2 bytes, high byte first), the payload size and the payload.
 */
uint32_t osp_dissect(const uint8_t *s, size_t n, uint8_t *out, size_t room);

/*
 * The answer dissector. Refusals 1 to 8, then 9.
 * Writes the command, the answering lamp's address (2 bytes, high byte first),
 * the answer size and the answer bytes.
 */
uint32_t osp_dissect_answer(const uint8_t *s, size_t n, uint8_t *out, size_t room);

/*
 * The command builder, of a command's number, its cast with a value, and the
 * bytes of its payload. Refusals 6 (no such command), 8 (not its payload size),
 * then 10 (cast or value out of range), 7 and 9. The command's own size is
 * tested before the rest, so a payload of 5, 7, 9 or more bytes, a length that
 * no telegram has, gives 8 here and not 10. Writes the telegram.
 */
uint32_t osp_build_command(uint32_t command, uint32_t cast, uint32_t value, const uint8_t *payload, size_t n,
                           uint8_t *out, size_t room);

/*
 * SETPWM from its fields: three duties up to 32767, and modes, a sum of 4 for
 * red, 2 for green and 1 for blue in daytime mode (0 is night). Refusals 10
 * (a duty, modes, cast or value out of range), then 9. Writes the telegram.
 */
uint32_t osp_build_pwm(uint32_t cast, uint32_t value, uint32_t modes, uint32_t red, uint32_t green, uint32_t blue,
                       uint8_t *out, size_t room);

/* The shortest room for an answer at delivery, and the length of a lamp that is read out. */
#define OSP_ANSWER_ROOM 12
#define OSP_LAMP_LEN 18

/* How many bytes the record of a chain of count lamps has; 0 for a count that is not 1 to 1007. */
uint32_t osp_record_len(uint32_t count);

/*
 * Makes a chain of count fresh lamps in a record of len bytes, with a default
 * setup byte and three default thresholds. Refusals 11, then 9.
 */
uint32_t osp_make(uint8_t *record, size_t len, uint32_t count, uint8_t setup, uint8_t t0, uint8_t t1, uint8_t t2);

/*
 * Delivers a telegram of n bytes to the chain. Refusals 9 (room under 12
 * bytes), 11, 1 to 8, then 12. Writes the answer, if there is one.
 */
uint32_t osp_deliver(uint8_t *record, size_t len, const uint8_t *s, size_t n, uint8_t *out, size_t room);

/*
 * A sensor report for a place (0 is the lamp nearest the host): stores a
 * temperature and sets the flags named by faults, a sum of 4 for LOS, 2 for OT
 * and 1 for UV; no flag is cleared. Refusals 11, 13, then 10.
 */
uint32_t osp_sense(uint8_t *record, size_t len, uint32_t place, uint8_t temperature, uint32_t faults);

/*
 * Reads out the lamp at a place. Refusals 11, 13, then 9.
 * Writes the address (2 bytes, high byte first), state, COM, the five flags as
 * they lie in the status byte, temperature, thresholds (3), setup, group word
 * (2) and PWM (6).
 */
uint32_t osp_lamp(const uint8_t *record, size_t len, uint32_t place, uint8_t *out, size_t room);

/*
 * The reader of a capture: a run of telegrams that arrives in chunks cut
 * anywhere, some empty. What it remembers from one chunk to the next lies in
 * OSP_READER_LEN bytes that the caller lends. All zeros is a fresh reader.
 *   byte 0       0 open, 1 ended, 2 stopped by a refusal
 *   byte 1       open: how many bytes of an unfinished telegram are carried, 0
 *                to 11; stopped: the refusal's number, 1 to 5; ended: 0
 *   bytes 2-9    the position in the run, high byte first, of the first byte
 *                that belongs to no telegram given so far; of a refused
 *                telegram its first byte. Counted modulo 2^64
 *   bytes 10-20  open: the carried bytes, zeros behind them; stopped by 5: the
 *                checksum worked out, the one received, which differ, and zeros;
 *                else zeros
 * Bytes behind these stay. Fewer bytes than OSP_READER_LEN, and a state that no
 * reading leaves, are refused with 11 and stay as they were.
 */
#define OSP_READER_LEN 21

/*
 * Reads the next telegram of a chunk of n bytes, from index *at on, and moves
 * *at behind it. Writes the telegram. Number 0 with count 0 is no telegram: all
 * of the chunk is taken and *at is n (or *at was n or more and stays), or the
 * run has ended and *at stays. However the run is cut, the telegrams, the refusal and its
 * position are those of the uncut run.
 * Refusals 11, then the reader's own (2 as soon as a telegram's first byte is
 * in, 3 with its third, 5 with its last), then 9. A refusal leaves *at and the
 * room. 2, 3 and 5 stop the reader: every later call for a telegram or for the
 * end repeats them, 5 with both checksums. 9 leaves the reader as it was, too.
 */
uint32_t osp_reader_next(uint8_t *reader, size_t len, const uint8_t *chunk, size_t n, size_t *at, uint8_t *out,
                         size_t room);

/*
 * The run has ended. Number 0 when nothing was left over; else the leftover
 * bytes are refused with 1 if fewer than 4, and with 4 otherwise. Later calls
 * repeat the answer. Refusals 11, then the reader's own (1, 4, or what stopped
 * it before).
 */
uint32_t osp_reader_end(uint8_t *reader, size_t len);

/*
 * The position in the reader: of the first byte that belongs to no telegram
 * given so far, after a refusal of the refused telegram's first byte. 0 also for
 * what the other two refuse with 11, which has no position.
 */
uint64_t osp_reader_position(const uint8_t *reader, size_t len);

#ifdef __cplusplus
}
#endif

#endif
