/* Ostelumiv 4.0.0: the proved codec of an Ethernet POWERLINK SDO client, for C.
 *
 * WARNING. The flag bits of a command are those of the repository that this client was carried over from, not those of EPSG DS 301:
 *
 *                     here and in the repository    EPSG DS 301
 *     response        0x10                          0x80
 *     abort           0x20                          0x40
 *     segmentation    0xC0 (value x 64)             0x30 (value x 16)
 *
 * An answer in which a node that follows EPSG DS 301 aborts (flags C0) is read here with is_aborted 0 and segmentation Complete. Whoever
 * takes such an answer for an acknowledgement takes a refused write for a written one. docs/DIFFERENCES.md has all the cases.
 *
 * These functions are the codec alone: bytes to numbers and back. The connection, the manager and the replay can be had from Rattle only.
 *
 * Link with the static library that `make lib` writes, target/staticlib/libostelumiv.a. With the linker's --gc-sections a program has only the
 * functions that it calls; the decoder, ostelumiv_command_read, then needs no constant data.
 *
 * Every function returns for every input: any numbers, any bytes, any length, zero included. Where a length is 0 the pointer is not
 * followed. Nothing is allocated, nothing is kept between calls, and a function may be called from any thread.
 *
 * An answer is a struct of numbers. Its `refusal` is 0, or one of the numbers below; with a refusal all its other numbers are 0 and no
 * byte of a buffer was written. `payload` and `buffer` of one call must not overlap.
 */
#ifndef OSTELUMIV_H
#define OSTELUMIV_H

#include <stddef.h>
#include <stdint.h>

/* The version of this header and of the library, the same as that of the Rust crates. */
#define OSTELUMIV_VERSION "4.0.0"

#ifdef __cplusplus
extern "C" {
#endif

/* The refusals that these functions give. */
enum ostelumiv_refusal {
    OSTELUMIV_BUFFER_TOO_SHORT = 1,             /* the bytes, or the room, are too short */
    OSTELUMIV_INVALID_ENUM_VALUE = 2,           /* an unknown command number; in a write also a state or segmentation above 3 */
    OSTELUMIV_SDO_INVALID_COMMAND_PAYLOAD = 3,  /* an index request under 4 bytes; a multiple read that is no multiple of 4 */
    OSTELUMIV_DCF_TOO_SHORT = 5                 /* a concise DCF under 4 bytes */
};

/* Receive states. */
enum ostelumiv_receive_con {
    OSTELUMIV_RECEIVE_NO_CONNECTION = 0,
    OSTELUMIV_RECEIVE_INITIALIZATION = 1,
    OSTELUMIV_RECEIVE_CONNECTION_VALID = 2,
    OSTELUMIV_RECEIVE_ERROR_RESPONSE = 3
};

/* Send states. */
enum ostelumiv_send_con {
    OSTELUMIV_SEND_NO_CONNECTION = 0,
    OSTELUMIV_SEND_INITIALIZATION = 1,
    OSTELUMIV_SEND_CONNECTION_VALID = 2,
    OSTELUMIV_SEND_CONNECTION_VALID_ACK_REQUEST = 3
};

/* How a command stands in its transfer. */
enum ostelumiv_segmentation {
    OSTELUMIV_EXPEDITED = 0,
    OSTELUMIV_INITIATE = 1,
    OSTELUMIV_SEGMENT = 2,
    OSTELUMIV_COMPLETE = 3
};

/* A write's answer: how many bytes it wrote to the start of the buffer; the rest of the buffer is as it was. */
struct ostelumiv_written {
    uint8_t refusal;
    size_t bytes;
};

/* ---- The sequence header: four bytes. */

struct ostelumiv_sequence {
    uint8_t refusal;
    uint8_t receive_sequence_number; /* 0 to 63 */
    uint8_t receive_con;
    uint8_t send_sequence_number; /* 0 to 63 */
    uint8_t send_con;
};

/* Reads the header at the start of a buffer. Refusal 1 under four bytes. */
struct ostelumiv_sequence ostelumiv_sequence_read(const uint8_t *buffer, size_t buffer_len);

/* Writes a header to the start of a buffer, its numbers modulo 64. Refusal 2 for a state above 3, then 1 under four bytes. */
struct ostelumiv_written ostelumiv_sequence_write(uint8_t receive_sequence_number, uint8_t receive_con,
                                                  uint8_t send_sequence_number, uint8_t send_con,
                                                  uint8_t *buffer, size_t buffer_len);

/* ---- The command: eight bytes, after Initiate a data size of four more, then the payload. */

struct ostelumiv_command {
    uint8_t refusal;
    uint8_t transaction_id;
    uint8_t is_response; /* 0 or 1: the bit 0x10 of the flags, see the warning above */
    uint8_t is_aborted;  /* 0 or 1: the bit 0x20 */
    uint8_t segmentation; /* the bits 0xC0 */
    uint8_t command_id; /* one that is listed, see ostelumiv_command_at */
    uint16_t segment_size;
    uint8_t has_data_size; /* 1 exactly with Initiate */
    uint32_t data_size;
    size_t payload_start; /* the payload is payload_len bytes of the same buffer from here on */
    size_t payload_len;
};

/* Reads the command at the start of a buffer. Refusals, in the order of the checks: 1 under eight bytes, 2 for an unknown command
 * number, 1 for an Initiate under twelve bytes, 1 for a payload that runs past the end. Bytes after the payload are not looked at. */
struct ostelumiv_command ostelumiv_command_read(const uint8_t *buffer, size_t buffer_len);

/* Writes a command and its payload to the start of a buffer. A flag is set by any number but 0. The segment size goes out as given; an
 * Initiate with has_data_size 0 gets a data size of 0. Refusal 2 for a segmentation above 3 or an unknown command number, then 1 where
 * it does not fit. */
struct ostelumiv_written ostelumiv_command_write(uint8_t transaction_id, uint8_t is_response, uint8_t is_aborted,
                                                 uint8_t segmentation, uint8_t command_id, uint16_t segment_size,
                                                 uint8_t has_data_size, uint32_t data_size,
                                                 const uint8_t *payload, size_t payload_len,
                                                 uint8_t *buffer, size_t buffer_len);

struct ostelumiv_listed {
    uint8_t listed; /* 1, or 0 and the number is 0 */
    uint8_t number;
};

/* The listing of command numbers: places 0 to 12 give their number, in ascending order, and others none. */
struct ostelumiv_listed ostelumiv_command_at(size_t place);

/* ---- What the payload of a request asks for. */

struct ostelumiv_index {
    uint8_t refusal;
    uint8_t sub_index; /* 0 for a write-all */
    uint16_t index;
    size_t data_start; /* the data of a write are data_len bytes of the same payload from here on; a read has none */
    size_t data_len;
};

/* ReadByIndex, WriteByIndex, WriteAllByIndex. Refusal 3 under four bytes. */
struct ostelumiv_index ostelumiv_read_by_index(const uint8_t *payload, size_t payload_len);
struct ostelumiv_index ostelumiv_write_by_index(const uint8_t *payload, size_t payload_len);
struct ostelumiv_index ostelumiv_write_all_by_index(const uint8_t *payload, size_t payload_len);

struct ostelumiv_count {
    uint8_t refusal;
    size_t count;
};

/* ReadMultipleParam: how many entries it asks for. Refusal 3 where the payload's length is no multiple of four. */
struct ostelumiv_count ostelumiv_read_multiple_param(const uint8_t *payload, size_t payload_len);

struct ostelumiv_entry {
    uint8_t found; /* 1, or 0 and zeros */
    uint8_t sub_index;
    uint16_t index;
};

/* Its entry at a place, counted from 0; none past the last one, or where the payload is refused. */
struct ostelumiv_entry ostelumiv_multiple_param_entry(const uint8_t *payload, size_t payload_len, size_t place);

/* ---- The concise DCF: a count of four bytes, then entries of index (2), sub-index (1), size (4) and data. */

/* How many entries a DCF counts. Refusal 5 under four bytes. */
struct ostelumiv_count ostelumiv_dcf_count(const uint8_t *dcf, size_t dcf_len);

enum ostelumiv_step_kind {
    OSTELUMIV_STEP_END = 0,       /* none is counted any more */
    OSTELUMIV_STEP_ENTRY = 1,     /* an entry */
    OSTELUMIV_STEP_UNREADABLE = 2 /* one is counted, but its bytes do not lie within the DCF */
};

struct ostelumiv_step {
    uint8_t kind; /* the other numbers are 0 but with an entry */
    uint8_t sub_index;
    uint16_t index;
    size_t start; /* its data are len bytes of the same DCF from here on */
    size_t len;
    size_t next_at; /* the cursor for the next step */
    uint32_t next_left;
};

/* The entry at a cursor. The first one's cursor is at 4, with the count left. */
struct ostelumiv_step ostelumiv_dcf_step(const uint8_t *dcf, size_t dcf_len, size_t at, uint32_t left);

#ifdef __cplusplus
}
#endif

#endif
