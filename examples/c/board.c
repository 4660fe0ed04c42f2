/*
 * A chain of nine lamps over the C interface: a sensor report, an init and its answer, SETPWM for one lamp and what
 * the lamp holds then, a telegram with a wrong checksum and the flag that it leaves. Then a capture that arrives in
 * chunks.
 *
 *     gcc -std=c99 -I include examples/c/board.c target/staticlib/libosp.a -o board && ./board
 */
#include <inttypes.h>
#include <stdio.h>
#include <stdlib.h>

#include "osp.h"

#define LAMPS 9
#define READSTATUS 0x40
#define STATUS_CE 0x08

/* Prints a refusal: its number, and of a wrong checksum the one worked out and the one received. */
static void print_refusal(FILE *to, uint32_t result)
{
    fprintf(to, "refused %u", (unsigned)OSP_NUMBER(result));
    if (OSP_NUMBER(result) == OSP_ERR_CHECKSUM)
        fprintf(to, ": worked out %02X, received %02X", (unsigned)OSP_COMPUTED(result), (unsigned)OSP_RECEIVED(result));
    fprintf(to, "\n");
}

/* Gives the count of a call that was done; only then is there one. Ends the program when it was refused. */
static size_t done(const char *call, uint32_t result)
{
    if (OSP_NUMBER(result) != OSP_DONE) {
        fprintf(stderr, "board: %s: ", call);
        print_refusal(stderr, result);
        exit(1);
    }
    return OSP_COUNT(result);
}

static void print_bytes(const char *label, const uint8_t *bytes, size_t n)
{
    printf("%s", label);
    for (size_t i = 0; i < n; i++)
        printf(" %02X", (unsigned)bytes[i]);
    printf("%s\n", n == 0 ? " none" : "");
}

/* Delivers a telegram and prints it, and its answer or the refusal. Gives what osp_deliver returned. */
static uint32_t deliver(uint8_t *record, size_t len, const uint8_t *telegram, size_t n, uint8_t *answer, size_t room)
{
    uint32_t result = osp_deliver(record, len, telegram, n, answer, room);

    print_bytes("tx", telegram, n);
    if (OSP_NUMBER(result) == OSP_DONE)
        print_bytes("rx", answer, OSP_COUNT(result));
    else
        print_refusal(stdout, result);
    return result;
}

/* Prints a colour of a PWM field: the top bit is the mode, the other 15 are the duty. */
static void print_colour(const char *name, const uint8_t *word)
{
    unsigned w = word[0] * 256u + word[1];

    printf(", %s %s %u", name, w / 32768u == 1 ? "day" : "night", w % 32768u);
}

/* Reads all telegrams of a chunk and prints each with the position of its first byte in the capture. */
static void read_chunk(uint8_t *reader, size_t len, const uint8_t *chunk, size_t size)
{
    uint8_t telegram[OSP_TELEGRAM_MAX];
    size_t at = 0, n;

    /* Count 0: no further telegram is whole; the reader carries what it has of one to the next chunk. */
    while ((n = done("capture", osp_reader_next(reader, len, chunk, size, &at, telegram, sizeof telegram))) > 0) {
        printf("at %" PRIu64 ":", osp_reader_position(reader, len) - n);
        print_bytes("", telegram, n);
    }
}

/* Reads three telegrams that arrive in three chunks, cut inside the second and the third. */
static void read_capture(void)
{
    static const uint8_t first[] = {0xA0, 0x04, 0x02, 0xA9, 0xA0, 0x25};
    static const uint8_t second[] = {0x02, 0x6B, 0x40, 0xD1, 0xA0, 0x17, 0x4F};
    static const uint8_t third[] = {0x03, 0xE8, 0x87, 0xD0, 0x00, 0x00, 0xB4};
    uint8_t reader[OSP_READER_LEN] = {0}; /* all zeros is a fresh reader */

    read_chunk(reader, sizeof reader, first, sizeof first);
    read_chunk(reader, sizeof reader, second, sizeof second);
    read_chunk(reader, sizeof reader, third, sizeof third);

    /* Bytes of an unfinished telegram would be refused here. */
    done("end of the capture", osp_reader_end(reader, sizeof reader));
    printf("capture ended at %" PRIu64 "\n", osp_reader_position(reader, sizeof reader));
}

int main(void)
{
    static const uint8_t init[] = {0xA0, 0x04, 0x02, 0xA9};    /* INITBIDIR from 1 */
    static const uint8_t damaged[] = {0xA0, 0x00, 0x00, 0x23}; /* RESET to everyone, its checksum should be 22 */
    uint8_t telegram[OSP_TELEGRAM_MAX], answer[OSP_ANSWER_ROOM];
    uint8_t lamp[OSP_LAMP_LEN], parts[OSP_RESULT_MAX];
    size_t len = osp_record_len(LAMPS), n;
    uint8_t *record = malloc(len);
    uint32_t result;

    if (record == NULL) {
        fprintf(stderr, "board: no memory\n");
        return 1;
    }
    done("make", osp_make(record, len, LAMPS, 0x13, 0x03, 0xE6, 0xF0));
    printf("%d lamps in %u bytes\n", LAMPS, (unsigned)len);

    /* The lamp at place 8, the last one, has temperature 6B and no fault. It answers the init. */
    done("sensor report", osp_sense(record, len, 8, 0x6B, 0));
    deliver(record, len, init, sizeof init, answer, sizeof answer);

    /* Lamp 5, at place 4: red and blue with night current, green with day current. */
    n = done("build SETPWM", osp_build_pwm(OSP_ONE, 5, 2, 1000, 2000, 0, telegram, sizeof telegram));
    deliver(record, len, telegram, n, answer, sizeof answer);
    done("read out", osp_lamp(record, len, 4, lamp, sizeof lamp));
    printf("place 4: address %03X", lamp[0] * 256u + lamp[1]);
    print_colour("red", lamp + 12);
    print_colour("green", lamp + 14);
    print_colour("blue", lamp + 16);
    printf("\n");

    /* A wrong checksum is refused and changes nothing but CE on the lamp at place 0. */
    deliver(record, len, damaged, sizeof damaged, answer, sizeof answer);

    /* READSTATUS has no payload: 0 bytes of any pointer that is not null. The status stands behind the answer's head. */
    n = done("build READSTATUS", osp_build_command(READSTATUS, OSP_ONE, 1, init, 0, telegram, sizeof telegram));
    result = deliver(record, len, telegram, n, answer, sizeof answer);
    n = done("READSTATUS", result);
    done("dissect", osp_dissect_answer(answer, n, parts, sizeof parts));
    printf("lamp 1: status %02X, CE is %s\n", (unsigned)parts[4], (parts[4] & STATUS_CE) != 0 ? "set" : "not set");

    free(record);
    read_capture();
    return 0;
}
