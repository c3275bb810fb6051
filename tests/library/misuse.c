// Makes each call that n2kdec.h refuses, between the lines of a log: it has to return the status that the header names,
// and to change nothing, so that the decoder's final output and reports are the program's.
//
//     misuse TABLE LOG OUTPUT ERRORS
//
// TABLE is examples/sample.toml, LOG a log that leaves a group open in its first lines, OUTPUT the program's output for
// it, and ERRORS its reports, without the summary.
#include "texts.h"

static const struct n2k_settings usual = {.window = 10000};
static long answered;

static void want(int32_t wanted, int32_t status, const char *call) {
    if (status != wanted) {
        fprintf(stderr, "%s answers %d\n", call, (int)status);
        fail("it has to answer", wanted);
    }
    answered++;
}

// Replaces the first occurrence of a part of a text.
static struct text changed(struct text text, const char *old, const char *new) {
    struct text made = {0};
    size_t size = strlen(old);
    for (size_t at = 0; at + size <= text.size; at++)
        if (memcmp(text.bytes + at, old, size) == 0) {
            append(&made, text.bytes, at);
            append(&made, (const uint8_t *)new, strlen(new));
            append(&made, text.bytes + at + size, text.size - at - size);
            return made;
        }
    fail(old, 0);
}

// One field more than a definition may have.
static char *too_many_fields(void) {
    static char fields[1 << 15];
    int size = sprintf(fields, "fields = [");
    for (int n = 0; n <= 256; n++) size += sprintf(fields + size, "{ name = \"f%d\", kind = \"number\", at = 0, bits = 8 }, ", n);
    return fields;
}

static int32_t open_with(struct n2k_decoder *d, struct text table, const struct text *state, const struct n2k_settings *settings) {
    return n2k_open(table.bytes, table.size, state != NULL, state ? state->bytes : NULL, state ? state->size : 0, settings, d);
}

// Whether the handle is all zeros, as before its first call.
static void stays_closed(const struct n2k_decoder *d) {
    if (d->live || d->hold.at != NULL) fail("a refused call opened a decoder", 0);
}

static void closed(void) {
    struct n2k_decoder d = {0};
    struct n2k_counted counted = {.lines = 5, .reserved = {6, 7}};
    uint8_t room[1] = {'x'};
    size_t size = 12345;
    want(N2K_CLOSED, n2k_feed(&d, (const uint8_t *)"x\n", 2), "feed of none");
    want(N2K_CLOSED, n2k_frame(&d, 0, room, 1, 0, 0), "frame of none");
    want(N2K_CLOSED, n2k_end(&d), "end of none");
    want(N2K_CLOSED, n2k_take(&d, room, 1, &size), "take of none");
    want(N2K_CLOSED, n2k_next(&d, room, 1, &size), "next of none");
    want(N2K_CLOSED, n2k_take_reports(&d, room, 1, &size), "take_reports of none");
    want(N2K_CLOSED, n2k_save(&d, room, 1, &size), "save of none");
    want(N2K_CLOSED, n2k_counts(&d, &counted), "counts of none");
    want(N2K_CLOSED, n2k_waiting(&d, &size), "waiting of none");
    struct n2k_decoder other = {0};
    want(N2K_CLOSED, n2k_open_sharing(&d, false, NULL, 0, &usual, &other), "open with the table of none");
    stays_closed(&other);
    n2k_close(&d);
    n2k_close(NULL);
    stays_closed(&d);
    if (room[0] != 'x' || size != 12345) fail("a room or a size was written to", (long)size);
    if (counted.lines != 5 || counted.reserved[0] != 6 || counted.reserved[1] != 7) fail("counts were written to", (long)counted.lines);
}

static void refused_windows(struct text table) {
    static const uint32_t windows[] = {0, 31, 1000001, UINT32_MAX};
    struct n2k_decoder d = {0};
    for (size_t at = 0; at < sizeof windows / sizeof *windows; at++) {
        struct n2k_settings settings = {.window = windows[at], .in_order = at % 2};
        want(N2K_WINDOW, open_with(&d, table, NULL, &settings), "open with a window that is none");
        stays_closed(&d);
    }
}

static void refused_settings(struct text table) {
    struct n2k_decoder d = {0};
    for (size_t at = 0; at < sizeof usual.reserved; at++) {
        struct n2k_settings settings = usual;
        settings.reserved[at] = (uint8_t)(1 << at % 8), settings.encode = at % 3;
        want(N2K_RESERVED, open_with(&d, table, NULL, &settings), "open with a setting that it does not know");
        stays_closed(&d);
    }
    for (int encode = 3; encode <= UINT8_MAX; encode++) {
        struct n2k_settings settings = {.window = 10000, .encode = (uint8_t)encode};
        want(N2K_RESERVED, open_with(&d, table, NULL, &settings), "open with another value of encode");
        stays_closed(&d);
    }
}

// The texts are those of the program's fault lines, which tests/library/python.py compares with the program's.
static void texts(void) {
    const struct {
        int32_t status;
        const char *text;
    } wanted[] = {
        {N2K_DONE, "done"},  {N2K_MEMORY, "memory"},        {N2K_RESERVED, "a reserved byte of the settings is not 0, or encode is over 2"},
        {101, "table 1 NotToml"}, {109, "table 9 TooMany"}, {201, "state 1 NotJson"},
        {206, "memory"},     {207, "state 7 WindowDiffers"}, {N2K_UNFINISHED, "bytes of an unfinished line wait"},
        {N2K_ENCODER, "an encoder has no state and takes no frames"},
    };
    for (size_t at = 0; at < sizeof wanted / sizeof *wanted; at++)
        if (strcmp(n2k_status_text(wanted[at].status), wanted[at].text) != 0) fail("another text of status", wanted[at].status);
    for (int32_t status = -300; status < 300; status++) {
        bool is_one = (status >= 0 && status <= 11) || (status > 100 && status < 110) || (status > 200 && status < 208);
        if (is_one == (strcmp(n2k_status_text(status), "no status of this version") == 0)) fail("a text of status", status);
    }
    if (n2k_version() != N2KDEC_VERSION) fail("the library has version", (long)n2k_version());
}

static void refused_tables(struct text table) {
    const struct {
        const char *old, *new;
    } faults[] = {
        {"[[lookup]]", "[[lookup]"},       {"format = 1", "format = 7"},      {"resolution =", "unit ="},
        {"bits = 8 }", "bits = 0 }"},      {"\"single\"", "\"slow\""},        {"\"COG\",", "\"SID\","},
        {"lookup = \"Ref", "lookup = \""}, {"number = 130820", "number = 129026"}, {"fields = [", too_many_fields()},
    };
    struct n2k_decoder d = {0};
    for (int32_t number = 1; number <= 9; number++) {
        struct text made = changed(table, faults[number - 1].old, faults[number - 1].new);
        want(N2K_TABLE + number, open_with(&d, made, NULL, &usual), "open of a refused table");
        stays_closed(&d);
        free(made.bytes);
    }
}

static void refused_state(struct text table, struct text state, int32_t number, const struct n2k_settings *settings) {
    struct n2k_decoder d = {0};
    want(N2K_STATE + number, open_with(&d, table, &state, settings), "open of a refused state");
    stays_closed(&d);
    free(state.bytes);
}

// Takes the queued text, or the state, into rooms that are too small by every number of bytes, and then into a larger
// room.
static void take_in_small_rooms(struct n2k_decoder *d, int32_t (*call)(struct n2k_decoder *, uint8_t *, size_t, size_t *), struct text *to) {
    size_t wanted, size;
    if (call(d, NULL, 0, &wanted) == N2K_DONE) return;
    for (size_t room = 0; room <= wanted; room++) {
        size_t whole = room < wanted ? room : room + 9;
        uint8_t *bytes = block(whole);
        memset(bytes, 'x', whole);
        want(room < wanted ? N2K_ROOM : N2K_DONE, call(d, bytes, whole, &size), "take into a room");
        if (size != wanted) fail("another size is told", (long)size);
        for (size_t at = room < wanted ? 0 : wanted; at < whole; at++)
            if (bytes[at] != 'x') fail("a room was written to where no text is", (long)at);
        if (room == wanted) append(to, bytes, size);
        free(bytes);
    }
}

// The refused states are made from one with open groups.
static void refused_states(struct text table, struct n2k_decoder *d) {
    struct text state = {0};
    struct n2k_settings other = {.window = 500};
    struct text table_too = changed(table, "format", "# a table is known by its bytes\nformat");
    take_in_small_rooms(d, n2k_save, &state);
    refused_state(table, changed(state, "{", ""), 1, &usual);
    refused_state(table, changed(state, "\"format\":2", "\"format\":3"), 2, &usual);
    refused_state(table, changed(state, "\"lines\"", "\"line\""), 3, &usual);
    refused_state(table_too, changed(state, "", ""), 4, &usual);
    refused_state(table, changed(state, "\"broken\":0", "\"broken\":9"), 5, &usual);
    refused_state(table, changed(state, "", ""), 7, &other);
    free(table_too.bytes), free(state.bytes);
}

// A log at the line limit accepts no further line, and its decoder is closed.
static void too_much(struct text table) {
    struct n2k_decoder d = {0};
    struct text empty = {0};
    want(N2K_DONE, open_with(&d, table, NULL, &usual), "open");
    take_in_small_rooms(&d, n2k_save, &empty);
    n2k_close(&d);
    struct text full = changed(empty, "\"lines\":0", "\"lines\":999999999999999");
    want(N2K_DONE, open_with(&d, table, &full, &usual), "open of a full state");
    want(N2K_DONE, n2k_feed(&d, (const uint8_t *)"x", 1), "feed of a line that is cut");
    want(N2K_TOO_MUCH, n2k_feed(&d, (const uint8_t *)"\n", 1), "feed of a line too many");
    stays_closed(&d);
    want(N2K_DONE, open_with(&d, table, &full, &usual), "open of a full state");
    want(N2K_DONE, n2k_feed(&d, (const uint8_t *)"x", 1), "feed of a line that is cut");
    want(N2K_TOO_MUCH, n2k_end(&d), "end of a line too many");
    stays_closed(&d);
    free(empty.bytes), free(full.bytes);
}

// An invalid frame changes nothing, and a frame comes between two lines.
static void refused_frames(struct n2k_decoder *d) {
    const uint8_t data[9] = {0};
    size_t size;
    want(N2K_FRAME, n2k_frame(d, 0x20000000, data, 8, 0, 0), "frame of 30 bits");
    want(N2K_FRAME, n2k_frame(d, 0, data, 9, 0, 0), "frame of 9 bytes");
    want(N2K_FRAME, n2k_frame(d, 0, data, 8, 253402300800, 0), "frame after the year 9999");
    want(N2K_FRAME, n2k_frame(d, 0, data, 8, 0, 1000000000), "frame of a second too many");
    want(N2K_DONE, n2k_feed(d, (const uint8_t *)"#", 1), "feed of a line that is cut");
    want(N2K_UNFINISHED, n2k_frame(d, 0, data, 8, 0, 0), "frame in a line");
    want(N2K_DONE, n2k_waiting(d, &size), "waiting");
    if (size != 1) fail("a refused frame changed what waits", (long)size);
    want(N2K_DONE, n2k_feed(d, (const uint8_t *)"\n", 1), "feed of its rest");
}

// A decoder shares the table of another one, as it is at any time: what n2k_open refuses is refused, and changes neither.
static void refused_sharing(struct text table, struct n2k_decoder *other) {
    struct n2k_settings settings = {.window = 31}, encoding = {.encode = 1}, unknown = {.window = 10000, .encode = 3};
    struct n2k_decoder d = {0};
    struct text state = {0}, of_other = {0};
    want(N2K_WINDOW, n2k_open_sharing(other, false, NULL, 0, &settings, &d), "share with a window that is none");
    want(N2K_RESERVED, n2k_open_sharing(other, false, NULL, 0, &unknown, &d), "share with a setting that it does not know");
    want(N2K_ENCODER, n2k_open_sharing(other, true, (const uint8_t *)"{}", 2, &encoding, &d), "share with an encoder's state");
    want(N2K_STATE + 1, n2k_open_sharing(other, true, (const uint8_t *)"{", 1, &usual, &d), "share with a state that is none");
    stays_closed(&d);
    take_in_small_rooms(other, n2k_save, &of_other);
    want(N2K_DONE, n2k_open_sharing(other, true, of_other.bytes, of_other.size, &usual, &d), "share");
    want(N2K_OPEN, n2k_open_sharing(other, false, NULL, 0, &usual, &d), "share to one that is open");
    want(N2K_OPEN, n2k_open_sharing(&d, false, NULL, 0, &usual, other), "share to the other one");
    take_in_small_rooms(&d, n2k_save, &state);
    if (!same(state, of_other)) fail("another state", (long)state.size);
    n2k_close(&d);
    want(N2K_DONE, open_with(&d, table, &state, &usual), "open of a state of a shared table");
    n2k_close(&d);
    free(state.bytes), free(of_other.bytes);
}

// The table that the library contains, and a decoder of it.
static void own_table(void) {
    struct n2k_decoder d = {0};
    struct n2k_counted counted;
    size_t size;
    const uint8_t *toml = n2k_table(&size);
    want(N2K_DONE, n2k_open(NULL, 0, false, NULL, 0, &usual, &d), "open with no table");
    want(N2K_DONE, n2k_frame(&d, 0x09F80203, NULL, 0, 253402300799, 999999999), "frame without data");
    refused_frames(&d);
    want(N2K_DONE, n2k_counts(&d, &counted), "counts");
    if (counted.lines != 2 || counted.messages != 1) fail("other counts of frames", (long)counted.lines);
    n2k_close(&d);
    want(N2K_DONE, n2k_open(toml, size, false, NULL, 0, &usual, &d), "open with that table");
    want(N2K_DONE, n2k_end(&d), "end");
    want(N2K_ENDED, n2k_frame(&d, 0, NULL, 0, 0, 0), "frame of an ended log");
    n2k_close(&d);
}

// Feeds a text, one byte at a time.
static void feed_text(struct n2k_decoder *d, const char *text) {
    for (; *text != 0; text++) want(N2K_DONE, n2k_feed(d, (const uint8_t *)text, 1), "feed of a byte to an encoder");
}

static void want_text(struct text *got, const char *wanted) {
    if (got->size != strlen(wanted) || memcmp(got->bytes, wanted, got->size) != 0) {
        fwrite(got->bytes, 1, got->size, stderr);
        fail(wanted, (long)got->size);
    }
    free(got->bytes);
    *got = (struct text){0};
}

// A call that only a decoder has changes nothing in an encoder.
static void refused_by_an_encoder(struct n2k_decoder *d) {
    uint8_t room[9] = {0};
    size_t size = 12345;
    want(N2K_ENCODER, n2k_frame(d, 0x09F80203, room, 8, 1, 0), "frame of an encoder");
    want(N2K_ENCODER, n2k_save(d, room, sizeof room, &size), "save of an encoder");
    if (size != 12345 || room[0] != 0) fail("save of an encoder wrote", (long)size);
}

// An encoder reads no other setting, has no state and takes no frames. A rate counts 0.00000003125: 163,083 (0b 7d 02 00) is
// 0.00509634375, and 0.00000004 is 1.28.
static void encoder(struct text table) {
    static const char begin[] = "{\"pgn\":127251,\"src\":36,\"fields\":{\"SID\":125,\"Rate\":0.005";
    struct n2k_settings settings = {.window = 1, .in_order = true, .empty = true, .whole = true, .encode = 1};
    struct n2k_decoder d = {0};
    struct text printed = {0}, reported = {0}, state = {0};
    struct n2k_counted counted;
    size_t size;
    want(N2K_ENCODER, open_with(&d, table, &state, &settings), "open of an encoder with a state");
    stays_closed(&d);
    for (; settings.encode <= 2; settings.encode++) {
        want(N2K_DONE, open_with(&d, table, NULL, &settings), "open of an encoder");
        want(N2K_OPEN, open_with(&d, table, NULL, &settings), "open of one that is open");
        refused_by_an_encoder(&d);
        feed_text(&d, "# a comment\n\n");
        feed_text(&d, begin);
        refused_by_an_encoder(&d);
        want(N2K_DONE, n2k_waiting(&d, &size), "waiting");
        if (size != strlen(begin)) fail("other bytes wait", (long)size);
        want(N2K_DONE, n2k_take(&d, NULL, 0, &size), "take of nothing");
        feed_text(&d, "09634375}}\n{\"pgn\":127251,\"fields\":{\"Rate\":0.00000004}}\r\n[]\n");
        take_in_small_rooms(&d, n2k_next, &printed);
        want_text(&printed, "1970-01-01T00:00:00.000Z,6,127251,36,255,8,7d,0b,7d,02,00,ff,ff,ff\n");
        take_in_small_rooms(&d, n2k_take, &printed);
        take_in_small_rooms(&d, n2k_take_reports, &reported);
        want_text(&printed, settings.encode == 1 ? "" : "1970-01-01T00:00:00.000Z,6,127251,0,255,8,ff,01,00,00,00,ff,ff,ff\n");
        want_text(&reported, settings.encode == 1 ? "line 4 bad B17 value \"Rate\"\nline 5 bad B13 json\n" : "line 5 bad B13 json\n");
        feed_text(&d, "{\"pgn\":1,\"fields\":{}}");
        want(N2K_DONE, n2k_end(&d), "end of an encoder");
        want(N2K_ENDED, n2k_end(&d), "end of an ended encoder");
        want(N2K_ENDED, n2k_feed(&d, (const uint8_t *)"x", 1), "feed of an ended encoder");
        take_in_small_rooms(&d, n2k_take_reports, &reported);
        want_text(&reported, "line 6 bad B8 unknown\n");
        want(N2K_DONE, n2k_counts(&d, &counted), "counts of an encoder");
        if (counted.lines != 6 || counted.messages != settings.encode || counted.messages + counted.bad != 4) fail("other counts", (long)counted.bad);
        if (counted.unknown || counted.broken || counted.open || counted.reserved[0] || counted.reserved[1]) fail("counts of a decoder", (long)counted.open);
        n2k_close(&d);
        stays_closed(&d);
    }
}

int main(int count, char **words) {
    if (count != 5) return 2;
    struct text table = file(words[1]), log = file(words[2]), output = file(words[3]), errors = file(words[4]);
    struct text printed = {0}, reported = {0};
    struct n2k_decoder d = {0};
    size_t start = 0, size;
    texts();
    closed();
    refused_windows(table);
    refused_settings(table);
    refused_tables(table);
    too_much(table);
    own_table();
    encoder(table);
    want(N2K_DONE, open_with(&d, table, NULL, &usual), "open");
    for (size_t at = 0; at < log.size; at++) {
        if (log.bytes[at] != '\n') continue;
        want(N2K_DONE, n2k_feed(&d, log.bytes + start, at + 1 - start), "feed");
        start = at + 1;
        want(N2K_DONE, n2k_feed(&d, NULL, 0), "feed of nothing");
        want(N2K_OPEN, open_with(&d, table, NULL, &usual), "open of one that is open");
        closed();
        refused_windows(table);
        refused_states(table, &d);
        refused_sharing(table, &d);
        take_in_small_rooms(&d, n2k_next, &printed);
        take_in_small_rooms(&d, n2k_take, &printed);
        take_in_small_rooms(&d, n2k_take_reports, &reported);
    }
    want(N2K_DONE, n2k_end(&d), "end");
    want(N2K_ENDED, n2k_end(&d), "end of an ended log");
    want(N2K_ENDED, n2k_feed(&d, log.bytes, log.size), "feed of an ended log");
    want(N2K_OPEN, open_with(&d, table, NULL, &usual), "open of an ended log");
    take_in_small_rooms(&d, n2k_take, &printed);
    take_in_small_rooms(&d, n2k_take_reports, &reported);
    want(N2K_DONE, n2k_take(&d, NULL, 0, &size), "take of nothing");
    n2k_close(&d);
    n2k_close(&d);
    stays_closed(&d);
    if (!same(printed, output)) fail("another output", (long)printed.size);
    if (!same(reported, errors)) fail("other reports", (long)reported.size);
    printf("%ld answers\n", answered);
    free(table.bytes), free(log.bytes), free(output.bytes), free(errors.bytes), free(printed.bytes), free(reported.bytes);
    return 0;
}
