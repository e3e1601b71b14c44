/* Prints a line for each tag of the reports of a stream of LLRP frames on standard input: the text of its EPC-96, or - where it has another
 * EPC, and the antenna and the RSSI where the report says them.
 *
 *     seen < stream
 *
 * Build it as docs/library.md says. The exit status is 0 if all is well, 1 if something was at fault, 3 if memory ran out. */
#include "llrp.h"

#include <stdio.h>
#include <stdlib.h>
#include <string.h>

/* How much is read at a time. */
enum { PIECE = 4096 };

/* What grows as it needs to. */
struct room {
    void *at;
    size_t items;
};

/* Makes room for this many items. */
static void make_room(struct room *room, size_t items, size_t size) {
    if (items > room->items) {
        room->at = realloc(room->at, items * size);
        room->items = items;
        if (room->at == NULL) {
            exit(3);
        }
    }
}

static void print_tag(const struct llrp_tag *tag) {
    if (tag->has & LLRP_TAG_WORD) {
        printf("%.*s", (int)tag->text_length, (const char *)tag->text);
    } else {
        printf("-");
    }
    if (tag->has & LLRP_TAG_ANTENNA) {
        printf(" antenna %u", (unsigned)tag->antenna);
    }
    if (tag->has & LLRP_TAG_RSSI) {
        printf(" %d dBm", tag->rssi);
    }
    printf("\n");
}

/* Prints the tags of a frame. */
static void print_tags(const uint8_t *frame, size_t length, struct room *tags) {
    size_t count;
    uint32_t status = llrp_tags(frame, length, tags->at, tags->items, &count);
    if (status == LLRP_ROOM) {
        make_room(tags, count, sizeof(struct llrp_tag));
        status = llrp_tags(frame, length, tags->at, tags->items, &count);
    }
    if (status == LLRP_MEMORY) {
        exit(3);
    }
    for (size_t i = 0; i < count; i++) {
        print_tag((struct llrp_tag *)tags->at + i);
    }
}

/* Lists the first frame of a stream, as llrp_next_all does, in a room that grows. */
static uint32_t next_frame(const uint8_t *stream, size_t length, struct room *listing, size_t *used, size_t *written) {
    uint32_t status = llrp_next_all(stream, length, listing->at, listing->items, used, written);
    if (status == LLRP_ROOM) {
        make_room(listing, *written, 1);
        status = llrp_next_all(stream, length, listing->at, listing->items, used, written);
    }
    if (status == LLRP_MEMORY) {
        exit(3);
    }
    return status;
}

int main(void) {
    struct room stream = {NULL, 0}, listing = {NULL, 0}, tags = {NULL, 0};
    size_t kept = 0, read, used, written;
    int result = 0;
    uint32_t status = LLRP_MORE;
    make_room(&listing, PIECE, 1);
    make_room(&tags, 16, sizeof(struct llrp_tag));
    do {
        make_room(&stream, kept + PIECE, 1);
        read = fread((uint8_t *)stream.at + kept, 1, PIECE, stdin);
        kept += read;
        size_t at = 0;
        while (status != LLRP_BROKEN && (status = next_frame((uint8_t *)stream.at + at, kept - at, &listing, &used, &written)) != LLRP_MORE) {
            if (status == LLRP_OK) {
                print_tags((uint8_t *)stream.at + at, used, &tags);
            } else {
                fwrite(listing.at, 1, written, stdout);
                result = 1;
            }
            at += used;
        }
        kept -= at;
        memmove(stream.at, (uint8_t *)stream.at + at, kept);
    } while (read > 0 && status != LLRP_BROKEN);
    free(stream.at);
    free(listing.at);
    free(tags.at);
    return kept > 0 ? 1 : result;
}
