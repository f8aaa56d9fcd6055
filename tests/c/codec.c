/* Every function of include/ostelumiv.h with good, boundary and bad input. The expected values are written out, from document 01.
 *
 *   gcc -std=c99 -Wall -Wextra -Werror -I include tests/c/codec.c target/staticlib/libostelumiv.a
 *
 * It prints a line for each group, and stops with status 1 at the first check that fails. */
#include "check.h"
#include "ostelumiv.h"

#include <string.h>

#define FILL 0x55 /* what the buffer holds before a call */

/* The frames of document 01: the opening, the write, the abort at a timeout. */
static const uint8_t OPENING[12] = {0xFC, 0x01, 0, 0, 0, 1, 0, 0, 0, 0, 0, 0};
static const uint8_t WRITE[18] = {0x02, 0x07, 0, 0, 0, 1, 0, 1, 6, 0, 0, 0, 0x00, 0x21, 0x01, 0x00, 0x01, 0x04};
static const uint8_t ABORT[16] = {0xFE, 0x00, 0, 0, 0, 1, 0x20, 0, 4, 0, 0, 0, 0x00, 0x00, 0x04, 0x05};
/* A response that starts a transfer of 0x04030201 bytes with one of them. */
static const uint8_t INITIATE[13] = {0, 9, 0x50, 2, 1, 0, 0, 0, 1, 2, 3, 4, 0xEE};
/* The DCF of P7. */
static const uint8_t DCF[20] = {2, 0, 0, 0, 0x00, 0x21, 1, 2, 0, 0, 0, 0x01, 0x04, 0x01, 0x21, 0, 0, 0, 0, 0};

static uint8_t buffer[12 + 65535 + 1]; /* room for the longest segment, and one byte more */
static uint8_t payload[65536];

static uint8_t *fresh(void)
{
    memset(buffer, FILL, sizeof buffer);
    return buffer;
}

/* Whether the buffer holds these bytes and is as it was behind them. */
static int holds(const uint8_t *bytes, size_t len)
{
    size_t same = len;
    while (same < sizeof buffer && buffer[same] == FILL) {
        same++;
    }
    return same == sizeof buffer && (len == 0 || memcmp(buffer, bytes, len) == 0);
}

static int wrote(struct ostelumiv_written got, const uint8_t *bytes, size_t len)
{
    return got.refusal == 0 && got.bytes == len && holds(bytes, len);
}

static int refused(struct ostelumiv_written got, int refusal)
{
    return got.refusal == refusal && got.bytes == 0;
}

static int refused_write(struct ostelumiv_written got, int refusal)
{
    return refused(got, refusal) && holds(NULL, 0);
}

static int sequence_is(struct ostelumiv_sequence got, int refusal, int receive, int receive_con, int send, int send_con)
{
    return got.refusal == refusal && got.receive_sequence_number == receive && got.receive_con == receive_con &&
           got.send_sequence_number == send && got.send_con == send_con;
}

static int command_is(struct ostelumiv_command got, struct ostelumiv_command want)
{
    return got.refusal == want.refusal && got.transaction_id == want.transaction_id && got.is_response == want.is_response &&
           got.is_aborted == want.is_aborted && got.segmentation == want.segmentation && got.command_id == want.command_id &&
           got.segment_size == want.segment_size && got.has_data_size == want.has_data_size && got.data_size == want.data_size &&
           got.payload_start == want.payload_start && got.payload_len == want.payload_len;
}

static int refused_command(struct ostelumiv_command got, uint8_t refusal)
{
    return command_is(got, (struct ostelumiv_command){.refusal = refusal});
}

static int index_is(struct ostelumiv_index got, int refusal, int index, int sub_index, size_t start, size_t len)
{
    return got.refusal == refusal && got.index == index && got.sub_index == sub_index && got.data_start == start &&
           got.data_len == len;
}

static int count_is(struct ostelumiv_count got, int refusal, size_t count)
{
    return got.refusal == refusal && got.count == count;
}

static int entry_is(struct ostelumiv_entry got, int found, int index, int sub_index)
{
    return got.found == found && got.index == index && got.sub_index == sub_index;
}

static int step_is(struct ostelumiv_step got, struct ostelumiv_step want)
{
    return got.kind == want.kind && got.index == want.index && got.sub_index == want.sub_index && got.start == want.start &&
           got.len == want.len && got.next_at == want.next_at && got.next_left == want.next_left;
}

static int no_step(struct ostelumiv_step got, uint8_t kind)
{
    return step_is(got, (struct ostelumiv_step){.kind = kind});
}

static void sequence_read(void)
{
    const uint8_t full[5] = {0xFF, 0xFF, 0xAA, 0xBB, 0xCC};
    CHECK(sequence_is(ostelumiv_sequence_read(ABORT, 4), 0, 63, OSTELUMIV_RECEIVE_CONNECTION_VALID, 0, OSTELUMIV_SEND_NO_CONNECTION));
    CHECK(sequence_is(ostelumiv_sequence_read(OPENING, 12), 0, 63, OSTELUMIV_RECEIVE_NO_CONNECTION, 0, OSTELUMIV_SEND_INITIALIZATION));
    CHECK(sequence_is(ostelumiv_sequence_read(WRITE, 18), 0, 0, 2, 1, OSTELUMIV_SEND_CONNECTION_VALID_ACK_REQUEST));
    CHECK(sequence_is(ostelumiv_sequence_read(full, 5), 0, 63, OSTELUMIV_RECEIVE_ERROR_RESPONSE, 63, 3));
    CHECK(sequence_is(ostelumiv_sequence_read(full, 3), 1, 0, 0, 0, 0));
    CHECK(sequence_is(ostelumiv_sequence_read(NULL, 0), 1, 0, 0, 0, 0));
}

/* Every number of an answer is one of its kind, which rust/ostelumiv takes for granted. */
static void every_header(void)
{
    for (int first = 0; first < 256; first++) {
        for (int second = 0; second < 256; second++) {
            const uint8_t header[4] = {(uint8_t)first, (uint8_t)second, 0, 0};
            CHECK(sequence_is(ostelumiv_sequence_read(header, 4), 0, first / 4, first % 4, second / 4, second % 4));
        }
    }
}

static void sequence_write(void)
{
    const uint8_t wrapped[4] = {6 * 4 + 3, 63 * 4 + 3, 0, 0};
    CHECK(wrote(ostelumiv_sequence_write(63, 2, 0, 0, fresh(), 4), ABORT, 4));
    CHECK(wrote(ostelumiv_sequence_write(63, 0, 0, 1, fresh(), 5), OPENING, 4));
    CHECK(wrote(ostelumiv_sequence_write(0, 2, 1, 3, fresh(), sizeof buffer), WRITE, 4));
    CHECK(wrote(ostelumiv_sequence_write(70, 3, 255, 3, fresh(), 4), wrapped, 4));
    CHECK(refused_write(ostelumiv_sequence_write(0, 0, 0, 0, fresh(), 3), 1));
    CHECK(refused(ostelumiv_sequence_write(0, 0, 0, 0, NULL, 0), 1));
    CHECK(refused_write(ostelumiv_sequence_write(0, 4, 0, 0, fresh(), 4), 2));
    CHECK(refused_write(ostelumiv_sequence_write(0, 0, 0, 4, fresh(), 4), 2));
    CHECK(refused_write(ostelumiv_sequence_write(0, 255, 0, 0, fresh(), 3), 2));
    CHECK(refused(ostelumiv_sequence_write(0, 0, 0, 255, NULL, 0), 2));
}

static void command_read(void)
{
    const struct ostelumiv_command nil = {.transaction_id = 1, .payload_start = 8};
    const struct ostelumiv_command write = {
        .transaction_id = 1, .command_id = 1, .segment_size = 6, .payload_start = 8, .payload_len = 6};
    const struct ostelumiv_command aborted = {
        .transaction_id = 1, .is_aborted = 1, .segment_size = 4, .payload_start = 8, .payload_len = 4};
    const struct ostelumiv_command initiate = {
        .transaction_id = 9, .is_response = 1, .segmentation = OSTELUMIV_INITIATE, .command_id = 2, .segment_size = 1,
        .has_data_size = 1, .data_size = 0x04030201, .payload_start = 12, .payload_len = 1};
    CHECK(command_is(ostelumiv_command_read(OPENING + 4, 8), nil));
    CHECK(command_is(ostelumiv_command_read(WRITE + 4, 14), write));
    CHECK(command_is(ostelumiv_command_read(ABORT + 4, 12), aborted));
    CHECK(command_is(ostelumiv_command_read(INITIATE, 13), initiate));
    CHECK(refused_command(ostelumiv_command_read(NULL, 0), 1));
    CHECK(refused_command(ostelumiv_command_read(OPENING + 4, 7), 1));
    CHECK(refused_command(ostelumiv_command_read(WRITE + 4, 13), 1));
    CHECK(refused_command(ostelumiv_command_read(INITIATE, 12), 1));
    CHECK(refused_command(ostelumiv_command_read(INITIATE, 11), 1));
}

static void command_read_edges(void)
{
    /* The low flag bits and the reserved bytes are set, and the segment is as long as one can be. */
    const uint8_t head[8] = {0xFF, 7, 0xCF, 0x70, 0xFF, 0xFF, 0xFF, 0xFF};
    const struct ostelumiv_command longest = {
        .transaction_id = 7, .segmentation = OSTELUMIV_COMPLETE, .command_id = 0x70, .segment_size = 65535,
        .payload_start = 8, .payload_len = 65535};
    memcpy(fresh(), head, 8);
    CHECK(command_is(ostelumiv_command_read(buffer, 8 + 65535), longest));
    CHECK(command_is(ostelumiv_command_read(buffer, sizeof buffer), longest));
    CHECK(refused_command(ostelumiv_command_read(buffer, 8 + 65534), 1));
    buffer[3] = 0x71;
    CHECK(refused_command(ostelumiv_command_read(buffer, 8), 2));
    CHECK(refused_command(ostelumiv_command_read(buffer, 7), 1));
    buffer[2] = 0x40;
    CHECK(refused_command(ostelumiv_command_read(buffer, 11), 2));
    buffer[3] = 0x07;
    CHECK(refused_command(ostelumiv_command_read(buffer, 12), 2));
}

/* The same of every flags byte. */
static void every_flags(void)
{
    for (int flags = 0; flags < 256; flags++) {
        const int initiate = flags / 64 == OSTELUMIV_INITIATE;
        const uint8_t command[12] = {0, 0, (uint8_t)flags, 2};
        const struct ostelumiv_command read = {
            .is_response = flags / 16 % 2, .is_aborted = flags / 32 % 2, .segmentation = flags / 64, .command_id = 2,
            .has_data_size = initiate, .payload_start = initiate ? 12 : 8};
        CHECK(command_is(ostelumiv_command_read(command, 12), read));
    }
}

static void command_numbers(void)
{
    const uint8_t known[13] = {0, 1, 2, 3, 4, 5, 6, 0x20, 0x21, 0x31, 0x32, 0x40, 0x70};
    for (int number = 0; number < 256; number++) {
        const int refusal = memchr(known, number, 13) == NULL ? 2 : 0;
        uint8_t command[8] = {0, 0, 0, (uint8_t)number, 0, 0, 0, 0};
        const struct ostelumiv_command named = {.command_id = (uint8_t)number, .payload_start = 8};
        const struct ostelumiv_command read = ostelumiv_command_read(command, 8);
        CHECK(refusal == 0 ? command_is(read, named) : refused_command(read, 2));
        CHECK(ostelumiv_command_write(0, 0, 0, 0, command[3], 0, 0, 0, NULL, 0, command, 8).refusal == refusal);
    }
    for (size_t place = 0; place < 256; place++) {
        const struct ostelumiv_listed at = ostelumiv_command_at(place);
        CHECK(at.listed == (place < 13) && at.number == (place < 13 ? known[place] : 0));
    }
    CHECK(ostelumiv_command_at(SIZE_MAX).listed == 0 && ostelumiv_command_at(SIZE_MAX).number == 0);
}

static void command_write(void)
{
    const uint8_t absent[12] = {0, 9, 0x70, 2, 1, 0, 0, 0, 0, 0, 0, 0};
    CHECK(wrote(ostelumiv_command_write(1, 0, 0, 0, 0, 0, 0, 0, NULL, 0, fresh(), 8), OPENING + 4, 8));
    CHECK(wrote(ostelumiv_command_write(1, 0, 0, 0, 1, 6, 0, 0, WRITE + 12, 6, fresh(), 14), WRITE + 4, 14));
    CHECK(wrote(ostelumiv_command_write(1, 0, 0, 0, 1, 6, 1, 9, WRITE + 12, 6, fresh(), 15), WRITE + 4, 14));
    CHECK(wrote(ostelumiv_command_write(1, 0, 255, 0, 0, 4, 0, 0, ABORT + 12, 4, fresh(), 12), ABORT + 4, 12));
    CHECK(wrote(ostelumiv_command_write(9, 2, 0, 1, 2, 1, 1, 0x04030201, INITIATE + 12, 1, fresh(), 13), INITIATE, 13));
    CHECK(wrote(ostelumiv_command_write(9, 1, 1, 1, 2, 1, 0, 0x04030201, NULL, 0, fresh(), 12), absent, 12));
    CHECK(refused(ostelumiv_command_write(1, 0, 0, 0, 0, 0, 0, 0, NULL, 0, NULL, 0), 1));
    CHECK(refused_write(ostelumiv_command_write(1, 0, 0, 0, 0, 0, 0, 0, NULL, 0, fresh(), 7), 1));
    CHECK(refused_write(ostelumiv_command_write(1, 0, 0, 0, 1, 6, 0, 0, WRITE + 12, 6, fresh(), 13), 1));
    CHECK(refused_write(ostelumiv_command_write(9, 1, 0, 1, 2, 1, 1, 1, NULL, 0, fresh(), 11), 1));
    CHECK(refused_write(ostelumiv_command_write(9, 1, 0, 1, 2, 1, 1, 1, INITIATE + 12, 1, fresh(), 12), 1));
}

static void command_write_edges(void)
{
    const uint8_t head[8] = {0, 1, 0x80, 1, 0xFE, 0xFF, 0, 0};
    memset(payload, 0xEE, sizeof payload);
    struct ostelumiv_written got = ostelumiv_command_write(1, 0, 0, 2, 1, 0xFFFE, 0, 0, payload, 65536, fresh(), 8 + 65536);
    CHECK(got.refusal == 0 && got.bytes == 8 + 65536);
    CHECK(memcmp(buffer, head, 8) == 0 && memcmp(buffer + 8, payload, 65536) == 0 && buffer[8 + 65536] == FILL);
    CHECK(refused_write(ostelumiv_command_write(1, 0, 0, 2, 1, 0xFFFE, 0, 0, payload, 65536, fresh(), 8 + 65535), 1));
    CHECK(refused_write(ostelumiv_command_write(1, 0, 0, 4, 0, 0, 0, 0, NULL, 0, fresh(), 8), 2));
    CHECK(refused(ostelumiv_command_write(1, 0, 0, 255, 0, 0, 0, 0, NULL, 0, NULL, 0), 2));
    CHECK(refused_write(ostelumiv_command_write(1, 0, 0, 0, 7, 0, 0, 0, NULL, 0, fresh(), 8), 2));
    CHECK(refused_write(ostelumiv_command_write(1, 0, 0, 0, 0x71, 6, 0, 0, WRITE + 12, 6, fresh(), 7), 2));
    CHECK(refused(ostelumiv_command_write(1, 0, 0, 0, 255, 0, 0, 0, NULL, 0, NULL, 0), 2));
}

static void index_requests(void)
{
    const uint8_t request[6] = {0x00, 0x21, 0x01, 0xFF, 0x01, 0x04};
    CHECK(index_is(ostelumiv_read_by_index(request, 6), 0, 0x2100, 1, 0, 0));
    CHECK(index_is(ostelumiv_read_by_index(request, 4), 0, 0x2100, 1, 0, 0));
    CHECK(index_is(ostelumiv_read_by_index(request, 3), 3, 0, 0, 0, 0));
    CHECK(index_is(ostelumiv_read_by_index(NULL, 0), 3, 0, 0, 0, 0));
    CHECK(index_is(ostelumiv_write_by_index(request, 6), 0, 0x2100, 1, 4, 2));
    CHECK(index_is(ostelumiv_write_by_index(request, 4), 0, 0x2100, 1, 4, 0));
    CHECK(index_is(ostelumiv_write_by_index(request, 3), 3, 0, 0, 0, 0));
    CHECK(index_is(ostelumiv_write_by_index(NULL, 0), 3, 0, 0, 0, 0));
    CHECK(index_is(ostelumiv_write_all_by_index(request, 6), 0, 0x2100, 0, 4, 2));
    CHECK(index_is(ostelumiv_write_all_by_index(request, 4), 0, 0x2100, 0, 4, 0));
    CHECK(index_is(ostelumiv_write_all_by_index(request, 3), 3, 0, 0, 0, 0));
    CHECK(index_is(ostelumiv_write_all_by_index(NULL, 0), 3, 0, 0, 0, 0));
}

static void multiple_param(void)
{
    const uint8_t request[8] = {0x00, 0x21, 0x01, 0xFF, 0xFF, 0xFE, 0x02, 0x00};
    CHECK(count_is(ostelumiv_read_multiple_param(request, 8), 0, 2));
    CHECK(count_is(ostelumiv_read_multiple_param(NULL, 0), 0, 0));
    CHECK(count_is(ostelumiv_read_multiple_param(request, 7), 3, 0));
    CHECK(count_is(ostelumiv_read_multiple_param(request, 1), 3, 0));
    CHECK(entry_is(ostelumiv_multiple_param_entry(request, 8, 0), 1, 0x2100, 1));
    CHECK(entry_is(ostelumiv_multiple_param_entry(request, 8, 1), 1, 0xFEFF, 2));
    CHECK(entry_is(ostelumiv_multiple_param_entry(request, 8, 2), 0, 0, 0));
    CHECK(entry_is(ostelumiv_multiple_param_entry(request, 8, SIZE_MAX), 0, 0, 0));
    CHECK(entry_is(ostelumiv_multiple_param_entry(request, 7, 0), 0, 0, 0));
    CHECK(entry_is(ostelumiv_multiple_param_entry(NULL, 0, 0), 0, 0, 0));
}

static void dcf(void)
{
    const uint8_t most[5] = {0xFF, 0xFF, 0xFF, 0xFF, 0x01};
    const uint8_t huge[13] = {1, 0, 0, 0, 0x00, 0x21, 1, 0xF5, 0xFF, 0xFF, 0xFF, 0x01, 0x04};
    const struct ostelumiv_step first = {
        .kind = OSTELUMIV_STEP_ENTRY, .index = 0x2100, .sub_index = 1, .start = 11, .len = 2, .next_at = 13, .next_left = 1};
    const struct ostelumiv_step second = {.kind = OSTELUMIV_STEP_ENTRY, .index = 0x2101, .start = 20, .next_at = 20};
    CHECK(count_is(ostelumiv_dcf_count(DCF, 20), 0, 2));
    CHECK(count_is(ostelumiv_dcf_count(most, 5), 0, 0xFFFFFFFF));
    CHECK(count_is(ostelumiv_dcf_count(DCF, 4), 0, 2));
    CHECK(count_is(ostelumiv_dcf_count(DCF, 3), 5, 0));
    CHECK(count_is(ostelumiv_dcf_count(NULL, 0), 5, 0));
    CHECK(step_is(ostelumiv_dcf_step(DCF, 20, 4, 2), first));
    CHECK(step_is(ostelumiv_dcf_step(DCF, 20, 13, 1), second));
    CHECK(no_step(ostelumiv_dcf_step(DCF, 20, 20, 0), OSTELUMIV_STEP_END));
    CHECK(step_is(ostelumiv_dcf_step(DCF, 19, 4, 2), first));
    CHECK(no_step(ostelumiv_dcf_step(DCF, 19, 13, 1), OSTELUMIV_STEP_UNREADABLE));
    CHECK(no_step(ostelumiv_dcf_step(DCF, 12, 4, 2), OSTELUMIV_STEP_UNREADABLE));
    CHECK(no_step(ostelumiv_dcf_step(huge, 13, 4, 1), OSTELUMIV_STEP_UNREADABLE));
    CHECK(no_step(ostelumiv_dcf_step(DCF, 20, 20, 1), OSTELUMIV_STEP_UNREADABLE));
    CHECK(no_step(ostelumiv_dcf_step(DCF, 20, SIZE_MAX, 1), OSTELUMIV_STEP_UNREADABLE));
    CHECK(no_step(ostelumiv_dcf_step(DCF, 20, SIZE_MAX, 0), OSTELUMIV_STEP_END));
    CHECK(no_step(ostelumiv_dcf_step(NULL, 0, 0, 1), OSTELUMIV_STEP_UNREADABLE));
    CHECK(no_step(ostelumiv_dcf_step(NULL, 0, 0, 0), OSTELUMIV_STEP_END));
}

int main(void)
{
    group("sequence read", sequence_read);
    group("  of every header", every_header);
    group("sequence write", sequence_write);
    group("command read", command_read);
    group("  at its edges", command_read_edges);
    group("  of all flags", every_flags);
    group("command numbers", command_numbers);
    group("command write", command_write);
    group("  at its edges", command_write_edges);
    group("index requests", index_requests);
    group("multiple param", multiple_param);
    group("concise DCF", dcf);
    return 0;
}
