// ten_lines TABLE [LINES]: feeds chunks of 4 KiB, or with a second argument line by line.
#include <n2kdec.h>
#include <stdio.h>
#include <string.h>
static uint8_t table[1 << 20], piece[4096], room[1 << 20];
static size_t next(int count) {
    return count == 2 ? fread(piece, 1, sizeof piece, stdin) : fgets((char *)piece, sizeof piece, stdin) ? strlen((char *)piece) : 0;
}
int main(int count, char **words) {
    struct n2k_decoder d = {0};
    size_t size = count >= 2 ? fread(table, 1, sizeof table, fopen(words[1], "rb")) : 0;
    int32_t status = n2k_open(table, size, false, NULL, 0, &(struct n2k_settings){.window = 10000, .in_order = true}, &d);
    while (!status && (size = next(count)) > 0 && !(status = n2k_feed(&d, piece, size)) &&
           !(status = n2k_take(&d, room, sizeof room, &size))) fwrite(room, 1, size, stdout);
    if (!status && !(status = n2k_end(&d)) && !(status = n2k_take(&d, room, sizeof room, &size))) fwrite(room, 1, size, stdout);
    return status;
}
