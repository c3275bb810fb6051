/* What of n2kdec.h is not proved: null where a size is 0, null for n2k_close, the table that is contained, the version, and
   the texts of statuses. The proved calls take no null; library/build puts `proved_` before the names of those that are
   called here, and compiles this file in the folder of the table. */
#include "n2kdec.h"

__asm__(".pushsection .rodata\n"
        "own_table: .incbin \"n2k.toml\"\n"
        "own_table_end: .byte 0\n"
        ".popsection");

extern const uint8_t own_table[] __attribute__((visibility("hidden"))), own_table_end[] __attribute__((visibility("hidden")));

/* Programs that were compiled before `encode` had 0 there, a reserved byte. */
_Static_assert(offsetof(struct n2k_settings, encode) == 7 && sizeof(struct n2k_settings) == 32, "settings have their layout");

int32_t proved_n2k_open(const uint8_t *, size_t, bool, const uint8_t *, size_t, const struct n2k_settings *, struct n2k_decoder *);
int32_t proved_n2k_open_sharing(struct n2k_decoder *, bool, const uint8_t *, size_t, const struct n2k_settings *, struct n2k_decoder *);
int32_t proved_n2k_feed(struct n2k_decoder *, const uint8_t *, size_t);
int32_t proved_n2k_frame(struct n2k_decoder *, uint32_t, const uint8_t *, size_t, uint64_t, uint32_t);
int32_t proved_n2k_next(struct n2k_decoder *, uint8_t *, size_t, size_t *);
int32_t proved_n2k_take(struct n2k_decoder *, uint8_t *, size_t, size_t *);
int32_t proved_n2k_take_reports(struct n2k_decoder *, uint8_t *, size_t, size_t *);
int32_t proved_n2k_save(struct n2k_decoder *, uint8_t *, size_t, size_t *);
void proved_n2k_close(struct n2k_decoder *);

/* These bytes, or a byte of which nothing is read or written. */
static uint8_t *bytes_of(const uint8_t *bytes, size_t size) {
    static uint8_t none[1];
    return size > 0 ? (uint8_t *)bytes : none;
}

int32_t n2k_open(const uint8_t *table, size_t table_size, bool resumes, const uint8_t *state, size_t state_size,
                 const struct n2k_settings *settings, struct n2k_decoder *decoder) {
    if (table == NULL) table = n2k_table(&table_size);
    return proved_n2k_open(table, table_size, resumes, bytes_of(state, state_size), state_size, settings,
                           decoder);
}

int32_t n2k_open_sharing(struct n2k_decoder *other, bool resumes, const uint8_t *state, size_t state_size,
                         const struct n2k_settings *settings, struct n2k_decoder *decoder) {
    return proved_n2k_open_sharing(other, resumes, bytes_of(state, state_size), state_size, settings, decoder);
}

int32_t n2k_feed(struct n2k_decoder *decoder, const uint8_t *bytes, size_t size) {
    return proved_n2k_feed(decoder, bytes_of(bytes, size), size);
}

int32_t n2k_frame(struct n2k_decoder *decoder, uint32_t identifier, const uint8_t *data, size_t data_size, uint64_t seconds,
                  uint32_t nanoseconds) {
    return proved_n2k_frame(decoder, identifier, bytes_of(data, data_size), data_size, seconds, nanoseconds);
}

int32_t n2k_take(struct n2k_decoder *decoder, uint8_t *room, size_t room_size, size_t *size) {
    return proved_n2k_take(decoder, bytes_of(room, room_size), room_size, size);
}

int32_t n2k_take_reports(struct n2k_decoder *decoder, uint8_t *room, size_t room_size, size_t *size) {
    return proved_n2k_take_reports(decoder, bytes_of(room, room_size), room_size, size);
}

int32_t n2k_next(struct n2k_decoder *decoder, uint8_t *room, size_t room_size, size_t *size) {
    return proved_n2k_next(decoder, bytes_of(room, room_size), room_size, size);
}

int32_t n2k_save(struct n2k_decoder *decoder, uint8_t *room, size_t room_size, size_t *size) {
    return proved_n2k_save(decoder, bytes_of(room, room_size), room_size, size);
}

void n2k_close(struct n2k_decoder *decoder) {
    if (decoder != NULL) proved_n2k_close(decoder);
}

const uint8_t *n2k_table(size_t *size) {
    *size = (size_t)(own_table_end - own_table);
    return own_table;
}

uint32_t n2k_version(void) {
    return N2KDEC_VERSION;
}

const char *n2k_status_text(int32_t status) {
    static const char *const plain[] = {
        "done", "the room is too small", "memory", "a window has 32 to 1,000,000 lines", "lines", "no decoder is open",
        "a decoder is open", "the log has ended", "a reserved byte of the settings is not 0, or encode is over 2",
        "no CAN frame has this identifier, these data or this time", "bytes of an unfinished line wait",
        "an encoder has no state and takes no frames",
    };
    static const char *const tables[] = {
        "table 1 NotToml", "table 2 Format", "table 3 Key", "table 4 Range", "table 5 Text", "table 6 Twice", "table 7 Lookup",
        "table 8 Mixed", "table 9 TooMany",
    };
    static const char *const states[] = {
        "state 1 NotJson", "state 2 Format", "state 3 Shape", "state 4 TableDiffers", "state 5 Invalid", "memory",
        "state 7 WindowDiffers",
    };
    if (status >= 0 && status <= N2K_ENCODER) return plain[status];
    if (status > N2K_TABLE && status <= N2K_TABLE + 9) return tables[status - N2K_TABLE - 1];
    if (status > N2K_STATE && status <= N2K_STATE + 7) return states[status - N2K_STATE - 1];
    return "no status of this version";
}
