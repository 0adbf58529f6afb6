/*
 * Prints the hops and the channel of a frame. `hops [FILE]` reads one frame, at most 4096 bytes, from the file or from standard input.
 *
 * It ends with 0 where it printed the frame, with 1 where the input is no such frame, and with 2 where it could not read or write, or was called
 * wrongly. rust/examples/hops.rs prints the same.
 */
#include "awdl.h"

#include <inttypes.h>
#include <stdio.h>

#define LONGEST 4096

/* Reading a header refuses with three of the numbers. No other call of this program refuses, since it is given what was read. */
static int refused(uint32_t number, size_t offset)
{
    fprintf(stderr, "hops: frame refused with %" PRIu32 ": ", number);
    switch (number) {
    case AWDL_SHORT:
        fprintf(stderr, "cut in the field that starts at byte %zu\n", offset);
        break;
    case AWDL_NOT_ACTION:
        fputs("the first byte of the frame is not 08\n", stderr);
        break;
    case AWDL_NOT_VERSION:
        fputs("the second byte of the frame is not 10\n", stderr);
        break;
    default:
        fputs("not one of the refusals of a header\n", stderr);
    }
    return 1;
}

/* The sixteen hops of a sequence, each as its corrected channel. */
static int hops(const char *record, size_t at, const uint32_t sequence[AWDL_SEQUENCE_NUMBERS])
{
    printf("%s at=%zu hops=", record, AWDL_HEADER_SIZE + at);
    for (size_t n = 0;; n++) {
        uint32_t found, entry[AWDL_CHANNEL_NUMBERS], channel;
        uint32_t number = awdl_sequence_entry(sequence, n, &found, entry);
        if (number == 0 && !found)
            break;
        if (number == 0)
            number = awdl_channel(entry, &channel);
        if (number != 0)
            return refused(number, 0);
        printf(n == 0 ? "%" PRIu32 : ",%" PRIu32, channel);
    }
    putchar('\n');
    return 0;
}

static int synchronizations(const uint8_t *tail, size_t length)
{
    size_t item[AWDL_FOUND_NUMBERS];
    uint32_t record[AWDL_SYNCHRONIZATION_NUMBERS];
    uint32_t found = awdl_first_synchronization(tail, length, item, record);
    for (; found; found = awdl_next_synchronization(tail, length, item[AWDL_FOUND_NEXT], item, record))
        if (hops("synchronization", item[AWDL_FOUND_AT], record + AWDL_SYNCHRONIZATION_ENCODING))
            return 1;
    return 0;
}

static int channel_sequences(const uint8_t *tail, size_t length)
{
    size_t item[AWDL_FOUND_NUMBERS];
    uint32_t record[AWDL_CHANNEL_SEQUENCE_NUMBERS];
    uint32_t found = awdl_first_channel_sequence(tail, length, item, record);
    for (; found; found = awdl_next_channel_sequence(tail, length, item[AWDL_FOUND_NEXT], item, record))
        if (hops("channel_sequence", item[AWDL_FOUND_AT], record + AWDL_CHANNEL_SEQUENCE_ENCODING))
            return 1;
    return 0;
}

/* A channel alone, or those that the bits of a map name. */
static void data_paths(const uint8_t *tail, size_t length)
{
    static const unsigned named[] = {6, 44, 149};
    size_t item[AWDL_FOUND_NUMBERS];
    uint32_t record[AWDL_DATA_PATH_NUMBERS];
    uint32_t found = awdl_first_data_path(tail, length, item, record);
    for (; found; found = awdl_next_data_path(tail, length, item[AWDL_FOUND_NEXT], item, record)) {
        uint32_t channel = record[AWDL_DATA_PATH_CHANNEL];
        printf("data_path at=%zu ", AWDL_HEADER_SIZE + item[AWDL_FOUND_AT]);
        if (!record[AWDL_DATA_PATH_CHANNEL_MAP]) {
            puts("channel=none");
        } else if (record[AWDL_DATA_PATH_CHANNEL_KIND] == AWDL_SINGLE) {
            printf("channel=%" PRIu32 "\n", channel);
        } else {
            const char *before = "channels=";
            for (size_t bit = 0; bit < sizeof named / sizeof named[0]; bit++) {
                if (channel >> bit & 1) {
                    printf("%s%u", before, named[bit]);
                    before = ",";
                }
            }
            putchar('\n');
        }
    }
}

/* How the walk over the items ends. A search ends without a word where the tail is cut, and this tells. */
static void end(const uint8_t *tail, size_t length)
{
    size_t step[AWDL_STEP_NUMBERS], at = 0, items = 0;
    uint32_t answer = awdl_step(tail, length, at, step);
    for (; answer == AWDL_ITEM; answer = awdl_step(tail, length, at, step)) {
        at = step[AWDL_STEP_NEXT];
        items++;
    }
    if (answer == AWDL_CUT)
        printf("end cut at=%zu items=%zu\n", AWDL_HEADER_SIZE + step[AWDL_STEP_AT], items);
    else
        printf("end whole items=%zu\n", items);
}

static int report(const uint8_t *bytes, size_t length)
{
    size_t offset, size;
    uint32_t frame[AWDL_FRAME_NUMBERS];
    uint32_t number = awdl_frame_read(bytes, length, &offset, &size, frame);
    if (number != 0)
        return refused(number, offset);
    printf("frame subtype=%" PRIu32 " reserved=%" PRIu32 " phy=%" PRIu32 " target=%" PRIu32 " delta=%" PRIu32 "\n",
           frame[AWDL_FRAME_SUBTYPE], frame[AWDL_FRAME_RESERVED], frame[AWDL_FRAME_PHY_TX_TIME], frame[AWDL_FRAME_TARGET_TX_TIME],
           awdl_tx_delta(frame[AWDL_FRAME_PHY_TX_TIME], frame[AWDL_FRAME_TARGET_TX_TIME]));
    bytes += size;
    length -= size;
    if (synchronizations(bytes, length) || channel_sequences(bytes, length))
        return 1;
    data_paths(bytes, length);
    end(bytes, length);
    return 0;
}

int main(int argc, char **argv)
{
    static uint8_t bytes[LONGEST + 1];
    const char *name = argc > 1 ? argv[1] : "standard input";
    if (argc > 2) {
        fputs("hops: usage: hops [FILE]\n", stderr);
        return 2;
    }
    FILE *file = argc > 1 ? fopen(name, "rb") : stdin;
    size_t length = file ? fread(bytes, 1, sizeof bytes, file) : 0;
    if (!file || ferror(file)) {
        fprintf(stderr, "hops: cannot read %s\n", name);
        return 2;
    }
    if (length > LONGEST) {
        fprintf(stderr, "hops: input too long: more than %d bytes\n", LONGEST);
        return 1;
    }
    int status = report(bytes, length);
    if (fflush(stdout) != 0 || ferror(stdout)) {
        fputs("hops: cannot write\n", stderr);
        return 2;
    }
    return status;
}
