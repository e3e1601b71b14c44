/* Prints what libllrp_c.a makes of its arguments and of standard input.
 *
 *     tags TEXT..          the word of each tag URI, or why it has none
 *     tags < stream        the listing of a stream of LLRP frames
 *
 * Build it as docs/library.md says. The exit status is 0 if all is well, 1 if something was at fault, 3 if memory ran out. */
#include "llrp.h"

#include <stdio.h>
#include <stdlib.h>
#include <string.h>

/* Prints the name of a status. */
static void print_status(uint32_t status) {
    uint8_t name[LLRP_NAME_ROOM];
    size_t length = llrp_name(status, name, sizeof name);
    printf("! %.*s\n", (int)length, (const char *)name);
}

/* Prints the word of a text, and the text of that word, which is the same text again. */
static int print_word(const char *text) {
    uint8_t word[LLRP_WORD_OCTETS], again[LLRP_TEXT_ROOM];
    size_t length;
    uint32_t bit, status = llrp_word_of_text((const uint8_t *)text, strlen(text), word, sizeof word);
    if (status != LLRP_OK) {
        print_status(status);
        return 1;
    }
    for (size_t i = 0; i < sizeof word; i++) {
        printf("%02X", word[i]);
    }
    llrp_text_of_word(word, sizeof word, again, sizeof again, &length, &bit);
    printf(" %.*s\n", (int)length, (const char *)again);
    return 0;
}

/* Octets that grow. */
struct octets {
    uint8_t *at;
    size_t room;
};

/* Makes room for this many octets. */
static void make_room(struct octets *octets, size_t room) {
    if (room > octets->room) {
        octets->at = realloc(octets->at, room);
        octets->room = room;
        if (octets->at == NULL) {
            exit(3);
        }
    }
}

/* Prints the listing of the whole frames of a stream. The status is that of llrp_list, and *used how many octets they have. */
static uint32_t print_listing(const uint8_t *stream, size_t length, struct octets *listing, size_t *used) {
    size_t written;
    uint32_t status = llrp_list(stream, length, listing->at, listing->room, used, &written);
    if (status == LLRP_ROOM) {
        make_room(listing, written);
        status = llrp_list(stream, length, listing->at, listing->room, used, &written);
    }
    fwrite(listing->at, 1, written, stdout);
    return status;
}

/* Lists standard input piece by piece, as octets come from a socket. */
static int print_stream(void) {
    struct octets stream = {NULL, 0}, listing = {NULL, 0};
    size_t kept = 0, read, used;
    int result = 0;
    make_room(&listing, 4096);
    for (;;) {
        make_room(&stream, kept + 4096);
        read = fread(stream.at + kept, 1, 4096, stdin);
        if (read == 0) {
            break;
        }
        kept += read;
        uint32_t status = print_listing(stream.at, kept, &listing, &used);
        if (status == LLRP_MEMORY) {
            exit(3);
        }
        if (status != LLRP_OK) {
            result = 1;
        }
        kept -= used;
        memmove(stream.at, stream.at + used, kept);
        if (status == LLRP_BROKEN) {
            break;
        }
    }
    if (kept > 0) {
        printf("? %zu\n", kept);
        result = 1;
    }
    free(stream.at);
    free(listing.at);
    return result;
}

int main(int count, char **words) {
    int result = 0;
    if (count == 1) {
        return print_stream();
    }
    for (int i = 1; i < count; i++) {
        result |= print_word(words[i]);
    }
    return result;
}
