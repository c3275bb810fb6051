// Refuses each allocation of a decoder's or an encoder's life in turn: the call returns N2K_MEMORY or succeeds; the output
// so far is a prefix of the whole; after a refused n2k_feed or n2k_end the decoder is closed; after a refused n2k_open or
// n2k_save everything is unchanged; and no allocation is left. Linked with --wrap=malloc, --wrap=realloc and --wrap=free.
//
//     refused TABLE LOG OUTPUT STATE JSON ENCODED
//
// OUTPUT and STATE are the program's for LOG, and ENCODED is what it encodes of JSON.
#include "texts.h"

void *__real_malloc(size_t size), *__real_realloc(void *old, size_t size), __real_free(void *old);

// The number of allocations allowed before one is refused; -1 if none is.
static long allowed = -1;
static long blocks;
static bool is_refused;

static bool refuse(void) {
    bool now = allowed == 0;
    if (allowed >= 0) allowed--;
    is_refused |= now;
    return now;
}

void *__wrap_malloc(size_t size) {
    void *got = refuse() ? NULL : __real_malloc(size);
    blocks += got != NULL;
    return got;
}

void *__wrap_realloc(void *old, size_t size) {
    if (refuse()) return NULL;
    blocks += old == NULL;
    return __real_realloc(old, size);
}

void __wrap_free(void *old) {
    blocks -= old != NULL;
    __real_free(old);
}

// How a life begins.
enum way { WITHOUT_STATE, FROM_STATE, SHARING, ENCODING };

static struct text table, saved;
// What is fed, and the whole output of it; after a state, which counts lines, the output is another one.
static struct text fed, output;
static uint8_t room[1 << 16];
static long done, memory;

static bool is_done(int32_t status) {
    if (status != N2K_DONE && status != N2K_MEMORY) fail("status", status);
    if ((status == N2K_MEMORY) != is_refused) fail("memory was refused, and a call answers", status);
    done += status == N2K_DONE, memory += status != N2K_DONE;
    return status == N2K_DONE;
}

static void want_open(const struct n2k_decoder *d, bool wanted) {
    if (d->live != wanted || (d->hold.at != NULL) != wanted) fail("the decoder is open", d->live);
}

// Feeds the input in chunks until a call is refused.
static bool feed_all(struct n2k_decoder *d, enum way way) {
    size_t printed = 0, size;
    for (size_t at = 0; at < fed.size; at += 40) {
        bool is_fed = is_done(n2k_feed(d, fed.bytes + at, fed.size - at < 40 ? fed.size - at : 40));
        want_open(d, is_fed);
        if (!is_fed) return false;
        if (n2k_take(d, room, sizeof room, &size) != N2K_DONE) fail("take at byte", (long)at);
        if (way != FROM_STATE && (printed + size > output.size || memcmp(output.bytes + printed, room, size) != 0)) fail("another output at byte", (long)at);
        printed += size;
    }
    return true;
}

// Saves a state. After a refusal everything is unchanged: a second try succeeds.
static void save(struct n2k_decoder *d) {
    static uint8_t kept[sizeof room];
    size_t size = 12345, wanted;
    memcpy(kept, room, sizeof room);
    if (is_done(n2k_save(d, room, sizeof room, &size))) return;
    want_open(d, true);
    if (memcmp(kept, room, sizeof room) != 0 || size != 12345) fail("a refused save wrote to the room or the size", (long)size);
    if (n2k_save(d, room, 3, &wanted) != N2K_ROOM || n2k_save(d, room, sizeof room, &size) != N2K_DONE || size != wanted)
        fail("a state that was refused is not saved", (long)size);
}

// One life of a decoder or an encoder.
static void live(enum way way) {
    const struct n2k_settings settings = {.window = 10000, .encode = way == ENCODING};
    struct n2k_decoder d = {0};
    struct n2k_decoder other = {0};
    bool is_open = is_done(n2k_open(table.bytes, table.size, way == FROM_STATE, saved.bytes, saved.size, &settings, way == SHARING ? &other : &d));
    if (way == SHARING && is_open) {
        long before = blocks;
        is_open = is_done(n2k_open_sharing(&other, false, NULL, 0, &settings, &d));
        if (blocks - before > 1) fail("a decoder that shares a table takes as many blocks", blocks - before);
        want_open(&other, true);
        n2k_close(&other);
    }
    want_open(&d, is_open);
    if (is_open && feed_all(&d, way)) {
        bool is_ended = is_done(n2k_end(&d));
        want_open(&d, is_ended);
        if (is_ended && way != ENCODING) save(&d);
    }
    n2k_close(&d);
    want_open(&d, false);
}

// Refuses each allocation of such a life.
static void refuse_each(enum way way) {
    static const char *const ways[] = {"without a state", "from a state", "with a shared table", "of an encoder"};
    long number = 0;
    for (;; number++) {
        long before = blocks;
        allowed = number, is_refused = false;
        live(way);
        allowed = -1;
        if (blocks != before) fail("blocks are left", blocks - before);
        if (!is_refused) break;
    }
    printf("%ld allocations refused %s, answers: %ld done, %ld memory\n", number, ways[way], done, memory);
}

int main(int count, char **words) {
    if (count != 7) return 2;
    table = file(words[1]), fed = file(words[2]), output = file(words[3]), saved = file(words[4]);
    refuse_each(WITHOUT_STATE);
    refuse_each(FROM_STATE);
    refuse_each(SHARING);
    free(fed.bytes), free(output.bytes);
    fed = file(words[5]), output = file(words[6]);
    refuse_each(ENCODING);
    free(table.bytes), free(fed.bytes), free(output.bytes), free(saved.bytes);
    return 0;
}
