/* n2kdec for programs in C: recorded NMEA 2000 traffic in, a line of JSON for each message out, or the other way round.

   A decoder is kept between calls. Feed it the bytes of a log in chunks of any size; an unfinished line waits for its
   rest. Then take what it has printed and reported. All calls together print what `n2kdec decode` prints for the log,
   byte for byte: that is proved (docs/TRUST.md), if the caller obeys the rules below.

       struct n2k_decoder d = {0};
       struct n2k_settings settings = {.window = 10000, .in_order = true};
       int32_t status = n2k_open(table, table_size, false, NULL, 0, &settings, &d);
       while (status == N2K_DONE && (count = read(..)) > 0) {
           status = n2k_feed(&d, piece, count);
           if (status == N2K_DONE) status = n2k_take(&d, room, sizeof room, &size);
           ..
       }
       n2k_close(&d);

   An encoder is a decoder that was opened with `encode`. Feed it lines of JSON, in chunks of any size. It prints a plain
   line for each message, and reports each line that it refuses. All calls together print what `n2kdec encode` prints. An
   encoder has no state and takes no frames.

       struct n2k_settings settings = {.encode = 1};
       const char line[] = "{\"pgn\":128267,\"fields\":{\"Depth\":3.4}}\n";
       status = n2k_open(NULL, 0, false, NULL, 0, &settings, &d);
       if (status == N2K_DONE) status = n2k_feed(&d, (const uint8_t *)line, sizeof line - 1);
       if (status == N2K_DONE) status = n2k_next(&d, room, sizeof room, &size);

   Rules for the caller:
   - A `struct n2k_decoder` is zeros before its first n2k_open. Only these calls read or write it and what it points to.
     Do not copy it: a decoder that was copied and closed would be freed twice.
   - Any thread may call, but make one call at a time on a decoder. If several threads use it, order their calls by a mutex,
     or by starting and joining threads. Other decoders are independent, even if they share a table;
     n2k_open_sharing is a call on both of its decoders.
   - No pointer is null, unless its size is 0 or its call says so, and each points to as many bytes as its size says. What
     a call may write (a decoder, a room, a size, counts) overlaps nothing else that the call gets.
   - Make no call from a signal handler, and no call in a child that a process with threads has forked.
   - malloc, realloc and free are the C library's, or a matching set that aligns to 16 bytes.

   A state is the text that n2k_save returns and that `n2kdec decode --save` writes: the library continues from a state
   of the program and the other way round, with the same table, window and order. The program refuses a table and a state
   of over 16,777,216 bytes; the library accepts them. */
#ifndef N2KDEC_H
#define N2KDEC_H

#include <stdbool.h>
#include <stddef.h>
#include <stdint.h>

#define N2KDEC_VERSION 10100 /* 1.1.0 */

#ifdef __cplusplus
extern "C" {
#endif

struct n2k_decoder {
    bool live;
    struct {
        void *at;
    } hold;
};

/* How to read a log: the options of `n2kdec decode`. An encoder reads only `encode` and `reserved`. */
struct n2k_settings {
    uint32_t window;      /* --window: 32 to 1,000,000 lines; the program's default is 10,000 */
    bool in_order;        /* --in-order */
    bool empty;           /* --empty */
    bool whole;           /* --whole */
    uint8_t encode;       /* 0: decode, 1: encode, 2: encode with --nearest; other values are refused */
    uint8_t reserved[24]; /* 0: a later version may give them a meaning; this version refuses other values */
};

/* The counts of the summary, for all lines that were taken, including those before a saved state. Those of an encoder are
   `lines`, `messages` and `bad`; the rest is 0. */
struct n2k_counted {
    uint64_t lines, messages, bad, unknown, broken, open;
    uint64_t reserved[2]; /* 0 */
};

/* What calls return. */
enum n2k_status {
    N2K_DONE = 0,
    N2K_ROOM = 1,     /* the room is too small: nothing is lost, and the size is the number of bytes needed */
    N2K_MEMORY = 2,   /* memory was refused */
    N2K_WINDOW = 3,   /* the window is out of range */
    N2K_TOO_MUCH = 4, /* over 999,999,999,999,999 lines, or 10^12 bytes in one chunk */
    N2K_CLOSED = 5,   /* no decoder is open */
    N2K_OPEN = 6,     /* a decoder is open */
    N2K_ENDED = 7,    /* the log has ended */
    N2K_RESERVED = 8, /* a reserved byte of the settings is not 0, or `encode` is over 2 */
    N2K_FRAME = 9,    /* no CAN frame has this identifier, these data or this time */
    N2K_UNFINISHED = 10, /* bytes of an unfinished line wait: feed its rest first */
    N2K_ENCODER = 11, /* an encoder has no state and takes no frames */
    N2K_TABLE = 100,  /* plus the number of the fault line, 1 to 9: `n2kdec: table 3 Key` is 103 */
    N2K_STATE = 200   /* plus the number of the fault line, 1 to 7: `n2kdec: state 4 TableDiffers` is 204 */
};

/* Reads a table and opens a decoder, or an encoder, with it. If the table is null, it is the one of n2k_table. If `resumes`
   is true the decoder continues from this state, otherwise it begins a log; an encoder cannot continue. If the call is
   refused, a decoder that was open is still open. */
int32_t n2k_open(const uint8_t *table, size_t table_size, bool resumes, const uint8_t *state, size_t state_size,
                 const struct n2k_settings *settings, struct n2k_decoder *decoder);

/* Opens a decoder, or an encoder, with the table of `other`, which is open: like n2k_open with the bytes of that table, but
   the table is not read again and takes no more memory. The memory of the table is freed when the last decoder with
   this table is closed; either may be closed first. Nothing else is shared. After the call `other` is as before; during the
   call no other thread may use it. If `other` is not open, the call returns N2K_CLOSED. */
int32_t n2k_open_sharing(struct n2k_decoder *other, bool resumes, const uint8_t *state, size_t state_size,
                         const struct n2k_settings *settings, struct n2k_decoder *decoder);

/* Feeds more of the log, or of an encoder's lines of JSON. After N2K_MEMORY and N2K_TOO_MUCH the decoder is closed, and what
   waited in it is lost. An unfinished line is kept whole until its line feed comes, however long it is: input without line
   feeds fills the memory. */
int32_t n2k_feed(struct n2k_decoder *decoder, const uint8_t *bytes, size_t size);

/* Takes one CAN frame: the 29 bits of its identifier (without flags), its data of at most 8 bytes, and its time, seconds
   since 1970 in UTC and the nanoseconds after them. The decoder prints what it prints for the line that `candump -L` writes
   of the frame. After N2K_MEMORY and N2K_TOO_MUCH the decoder is closed; other refusals change nothing. */
int32_t n2k_frame(struct n2k_decoder *decoder, uint32_t identifier, const uint8_t *data, size_t data_size, uint64_t seconds,
                  uint32_t nanoseconds);

/* Ends the log: its last line is taken even without a line feed. Afterwards the output can still be taken, and state and
   counts are those of the whole log. Returns the same refusals as n2k_feed. */
int32_t n2k_end(struct n2k_decoder *decoder);

/* Moves the waiting output, or the reports, to the start of the room, and returns the number of bytes. What is not taken
   waits and occupies memory: take both, even if nobody reads the reports. */
int32_t n2k_take(struct n2k_decoder *decoder, uint8_t *room, size_t room_size, size_t *size);
int32_t n2k_take_reports(struct n2k_decoder *decoder, uint8_t *room, size_t room_size, size_t *size);

/* Moves the next message of the waiting output to the start of the room: its line of JSON, or the plain line of an encoder,
   with the line feed. If no message waits, the size is 0. */
int32_t n2k_next(struct n2k_decoder *decoder, uint8_t *room, size_t room_size, size_t *size);

/* Returns the counts. */
int32_t n2k_counts(struct n2k_decoder *decoder, struct n2k_counted *counted);

/* Returns how many bytes of an unfinished line wait: the last bytes that were fed. */
int32_t n2k_waiting(struct n2k_decoder *decoder, size_t *size);

/* Writes the state after the lines that were taken to the start of the room, and returns its number of bytes. The bytes
   that n2k_waiting counts are not in the state: to continue from the state, feed them again. Output and reports that were
   not taken are not in the state either. */
int32_t n2k_save(struct n2k_decoder *decoder, uint8_t *room, size_t room_size, size_t *size);

/* Closes the decoder if it is open, and frees its memory. Null is allowed. */
void n2k_close(struct n2k_decoder *decoder);

/* The table that the library contains, tables/n2k.toml of the sources, and the number of its bytes. */
const uint8_t *n2k_table(size_t *size);

/* The text of a status: the words of the program's fault line if there is one, for example "table 3 Key". */
const char *n2k_status_text(int32_t status);

/* N2KDEC_VERSION of the library that was loaded. */
uint32_t n2k_version(void);

#ifdef __cplusplus
}
#endif

#endif
