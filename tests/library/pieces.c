// Feeds a log in random chunks and frames to a decoder, whose table it reads or shares with another one, takes the queued text, all or one line, into rooms of random
// size, saves, closes and resumes from the state after random lines, and compares the whole output and reports, the
// counts and the last state with the program's.
//
//     pieces CALLS SEED TABLE LOG OUTPUT ERRORS STATE WINDOW OPTIONS [THREADS]
//
// OUTPUT, ERRORS and STATE are the program's for that log; OPTIONS has the letters o (in order), e (empty) and w
// (whole), or for an encoder j (JSON) or n (nearest), in any order. An encoder has no frames and no state. The log is fed repeatedly until CALLS calls were made. The chunks of one decoder have 1 byte
// up to a limit, which is a power of 2 up to 64 KiB. With THREADS, twice as many decoders go from thread to thread: a
// thread takes one, under a mutex, makes a few calls, and puts it back.
#include "texts.h"
#include <pthread.h>

// One pass over the log, and its results so far.
struct run {
    unsigned long long seed;
    struct n2k_decoder decoder;
    struct text printed, reported;
    // How far the log is fed, where the line that is cut begins, and the number of lines after which the decoder is
    // saved.
    size_t at, start, lines, wanted, most;
    long calls, opened, shared, frames, hands;
    pthread_t last;
};

// What all runs share.
static struct text table, log_text, output, errors, end;
static struct n2k_settings settings;

// xorshift64*: a number from 0 to n - 1
static size_t below(struct run *run, size_t n) {
    run->seed ^= run->seed >> 12, run->seed ^= run->seed << 25, run->seed ^= run->seed >> 27;
    return (size_t)((run->seed * 2685821657736338717ULL) >> 33) % n;
}

typedef int32_t take_call(struct n2k_decoder *, uint8_t *, size_t, size_t *);

// Appends the queued text. If the room is too small, nothing is lost, and the required size is returned.
static void take(struct run *run, take_call *call, struct text *to) {
    size_t room = below(run, 400), size = 12345;
    uint8_t *bytes = block(room);
    memset(bytes, 'x', room);
    int32_t status = call(&run->decoder, bytes, room, &size);
    run->calls++;
    if (status == N2K_ROOM) {
        if (size <= room) fail("a room that was large enough is refused", (long)size);
        for (size_t at = 0; at < room; at++)
            if (bytes[at] != 'x') fail("a room that is too small was written to", (long)at);
        free(bytes);
        bytes = block(size), room = size;
        status = call(&run->decoder, bytes, room, &size);
        run->calls++;
        if (size != room) fail("another size the second time", (long)size);
    }
    if (status != N2K_DONE) fail("take", status);
    append(to, bytes, size);
    free(bytes);
}

// The thread sanitizer does not see the library's atomic counts, and would report that the last owner frees the table.
#ifdef __SANITIZE_THREAD__
static const bool can_share = false;
#else
static const bool can_share = true;
#endif

// The decoder whose table others share, under a mutex. It is closed, and replaced, before most of them.
static struct n2k_decoder lender;
static pthread_mutex_t lending = PTHREAD_MUTEX_INITIALIZER;

// Reads the table, or shares it.
static void open_decoder(struct run *run, const struct text *state) {
    const uint8_t *bytes = state ? state->bytes : NULL;
    size_t size = state ? state->size : 0;
    int32_t status;
    pthread_mutex_lock(&lending);
    if (lender.live) {
        status = n2k_open_sharing(&lender, state != NULL, bytes, size, &settings, &run->decoder);
        run->shared++;
        if (below(run, 4) == 0) n2k_close(&lender);
    } else {
        status = n2k_open(table.bytes, table.size, state != NULL, bytes, size, &settings, &run->decoder);
    }
    // The encoder of a decoder's table, or the other way round.
    struct n2k_settings other = {.window = 32, .encode = settings.encode == 0};
    if (status == N2K_DONE && !lender.live && can_share && below(run, 8) != 0)
        status = n2k_open_sharing(&run->decoder, false, NULL, 0, &other, &lender);
    pthread_mutex_unlock(&lending);
    if (status != N2K_DONE) fail("open", status);
    run->calls++, run->opened++;
}

static void close_decoder(struct run *run) {
    n2k_close(&run->decoder);
    if (run->decoder.live || run->decoder.hold.at) fail("a closed decoder is open", 0);
    run->calls++;
}

static void take_both(struct run *run) {
    take(run, n2k_take, &run->printed);
    take(run, n2k_take_reports, &run->reported);
}

// Feeds a chunk from its own block, which is freed afterwards.
static void feed(struct run *run, size_t at, size_t size) {
    uint8_t *bytes = block(size);
    memcpy(bytes, log_text.bytes + at, size);
    int32_t status = n2k_feed(&run->decoder, bytes, size);
    if (status != N2K_DONE) fail("feed", status);
    memset(bytes, 'x', size);
    free(bytes);
    run->calls++;
}

// Feeds the candump line at this position as a frame, if it has the form that candump prints. Returns its length.
static size_t feed_frame(struct run *run, size_t at) {
    char line[80] = "", printed[80], data[17] = "";
    unsigned long long seconds = 0;
    unsigned micros = 0, identifier = 0, byte;
    uint8_t bytes[8];
    size_t size = 0;
    while (size < sizeof line - 1 && at + size < log_text.size && log_text.bytes[at + size] != '\n') {
        line[size] = (char)log_text.bytes[at + size];
        size++;
    }
    if (sscanf(line, "(%12llu.%6u) can0 %8X#%16[0-9A-F]", &seconds, &micros, &identifier, data) < 3 || strlen(data) % 2) return 0;
    int width = (int)(strchr(line, '.') - line) - 1;
    snprintf(printed, sizeof printed, "(%0*llu.%06u) can0 %08X#%s", width, seconds, micros, identifier, data);
    if (strcmp(line, printed) || identifier >= 0x20000000 || at + size >= log_text.size || log_text.bytes[at + size] != '\n') return 0;
    for (size_t i = 0; i < strlen(data) / 2; i++) sscanf(data + 2 * i, "%2X", &byte), bytes[i] = (uint8_t)byte;
    int32_t status = n2k_frame(&run->decoder, identifier, bytes, strlen(data) / 2, seconds, 1000 * micros);
    if (status != N2K_DONE) fail("frame", status);
    run->calls++, run->frames++;
    return size + 1;
}

// Takes some messages, one line at a time.
static void take_some(struct run *run) {
    for (size_t most = below(run, 4); most > 0; most--) {
        size_t before = run->printed.size;
        take(run, n2k_next, &run->printed);
        size_t size = run->printed.size - before;
        if (size > 0 && memchr(run->printed.bytes + before, '\n', size) != run->printed.bytes + run->printed.size - 1)
            fail("not one line", (long)size);
    }
}

// Checks that this many bytes of a line are queued.
static void is_cut(struct run *run, size_t wanted) {
    size_t size;
    int32_t status = n2k_waiting(&run->decoder, &size);
    if (status != N2K_DONE || size != wanted) fail("other bytes wait", (long)size);
    run->calls++;
}

// Saves, closes and resumes from the state.
static void go_on(struct run *run) {
    struct text state = {block(1), 0, 1};
    take_both(run);
    take(run, n2k_save, &state);
    close_decoder(run);
    open_decoder(run, &state);
    free(state.bytes);
}

// Begins at the line that the decoder has not taken, and chooses after how many lines it is saved.
static void begin(struct run *run) {
    run->at = run->start, run->lines = 0, run->most = (size_t)1 << below(run, 17);
    run->wanted = settings.encode ? SIZE_MAX : 1 + below(run, 40);
}

// Feeds a chunk or a frame, and takes its results. The lines of the chunks are counted, so that a decoder resumes from
// a state only after at least one line: the line cut there is fed again, and a long line would otherwise never be
// passed.
static void step(struct run *run) {
    size_t at = run->at, size = at == run->start && !settings.encode && below(run, 2) ? feed_frame(run, at) : 0;
    if (size == 0) {
        size = 1 + below(run, run->most);
        if (size > log_text.size - at) size = log_text.size - at;
        // Every other chunk ends with a line, after which a frame may come.
        uint8_t *line = below(run, 2) ? memchr(log_text.bytes + at, '\n', log_text.size - at) : NULL;
        if (line != NULL) size = (size_t)(line - log_text.bytes) + 1 - at;
        feed(run, at, size);
    }
    for (run->at += size; at < run->at; at++)
        if (log_text.bytes[at] == '\n') run->start = at + 1, run->lines++;
    is_cut(run, run->at - run->start);
    if (below(run, 3) == 0) take_some(run);
    if (below(run, 3) == 0) take(run, n2k_take, &run->printed);
    if (below(run, 5) == 0) take(run, n2k_take_reports, &run->reported);
    if (run->lines >= run->wanted) {
        go_on(run);
        begin(run);
    }
}

// The program's last line on standard error.
static void append_summary(struct text *to, const struct n2k_counted *of) {
    char line[200];
    int size = snprintf(line, sizeof line, "lines %llu messages %llu bad %llu unknown %llu broken %llu open %llu\n",
                        (unsigned long long)of->lines, (unsigned long long)of->messages, (unsigned long long)of->bad,
                        (unsigned long long)of->unknown, (unsigned long long)of->broken, (unsigned long long)of->open);
    append(to, (const uint8_t *)line, (size_t)size);
}

// Ends the log, and compares.
static void finish(struct run *run) {
    struct text state = {0};
    struct n2k_counted counted;
    int32_t status = n2k_end(&run->decoder);
    if (status != N2K_DONE) fail("end", status);
    is_cut(run, 0);
    take_both(run);
    if (!settings.encode) take(run, n2k_save, &state);
    status = n2k_counts(&run->decoder, &counted);
    if (status != N2K_DONE) fail("counts", status);
    append_summary(&run->reported, &counted);
    run->calls += 2;
    close_decoder(run);
    if (!same(run->printed, output)) fail("another output", run->calls);
    if (!same(run->reported, errors)) fail("other reports or counts", run->calls);
    if (!settings.encode && !same(state, end)) fail("another state", run->calls);
    free(run->printed.bytes), free(run->reported.bytes), free(state.bytes);
}

// The runs that no thread has, in a ring, and the totals so far. The mutex guards all of it.
static pthread_mutex_t mutex = PTHREAD_MUTEX_INITIALIZER;
static struct run **ring;
static size_t ring_size, ring_first, ring_count;
static unsigned long long seed;
static long calls_wanted, calls, times, opened, shared, frames, hands;

static void put(struct run *run) {
    ring[(ring_first + ring_count++) % ring_size] = run;
}

static void put_new(void) {
    struct run *run = calloc(1, sizeof *run);
    if (run == NULL) fail("no memory", 1);
    run->seed = (seed += 2) * 0x9E3779B97F4A7C15ULL, run->last = pthread_self();
    put(run);
}

// Advances one run after another, until none is left.
static void *work(void *nothing) {
    pthread_mutex_lock(&mutex);
    while (ring_count > 0) {
        struct run *run = ring[ring_first];
        ring_first = (ring_first + 1) % ring_size, ring_count--;
        pthread_mutex_unlock(&mutex);
        run->hands += !pthread_equal(run->last, pthread_self());
        run->last = pthread_self();
        if (!run->decoder.live) open_decoder(run, NULL), begin(run);
        bool ends = run->at == log_text.size;
        if (ends) finish(run);
        else step(run);
        pthread_mutex_lock(&mutex);
        if (!ends) {
            put(run);
            continue;
        }
        calls += run->calls, opened += run->opened, shared += run->shared, frames += run->frames, hands += run->hands, times++;
        free(run);
        if (calls < calls_wanted) put_new();
    }
    pthread_mutex_unlock(&mutex);
    return nothing;
}

int main(int count, char **words) {
    if (count != 10 && count != 11) return 2;
    calls_wanted = atol(words[1]), seed = strtoull(words[2], NULL, 10) * 1000001 * 2 + 1;
    table = file(words[3]), log_text = file(words[4]), output = file(words[5]), errors = file(words[6]), end = file(words[7]);
    settings.window = (uint32_t)atol(words[8]), settings.in_order = strchr(words[9], 'o') != NULL;
    settings.empty = strchr(words[9], 'e') != NULL, settings.whole = strchr(words[9], 'w') != NULL;
    settings.encode = strchr(words[9], 'j') != NULL ? 1 : strchr(words[9], 'n') != NULL ? 2 : 0;
    size_t threads = count == 11 ? (size_t)atol(words[10]) : 0;
    pthread_t *others = calloc(threads + 1, sizeof *others);
    ring_size = threads == 0 ? 1 : 2 * threads, ring = calloc(ring_size, sizeof *ring);
    for (size_t i = 0; i < ring_size; i++) put_new();
    for (size_t i = 1; i < threads; i++)
        if (pthread_create(&others[i], NULL, work, NULL) != 0) fail("no thread", (long)i);
    work(NULL);
    for (size_t i = 1; i < threads; i++) pthread_join(others[i], NULL);
    n2k_close(&lender);
    printf("%ld calls, %ld times the log, %ld decoders, %ld of a shared table, %ld frames, %ld times to another thread\n", calls, times, opened, shared, frames, hands);
    free(table.bytes), free(log_text.bytes), free(output.bytes), free(errors.bytes), free(end.bytes), free(ring), free(others);
    return 0;
}
