/* llrp.h: tags of the EPC Tag Data Standard 1.13 and messages of the Low Level Reader Protocol 1.1, as texts and as octets.
 *
 * The functions are those of the library libllrp_c (docs/library.md says how to build and link it). They are proved to do
 * what is said here, for every content of what they are given, if the caller keeps to these rules:
 *
 *  - A pointer that is followed by a length points to that many octets, one to tags to that many structs; no pointer is null, not even for
 *    a length of 0.
 *  - What a call writes to does not overlap anything else that is passed to it.
 *  - Pointers to a size_t, uint32_t, uint64_t or struct llrp_tag are aligned as their types ask.
 *  - During a call nobody else writes to what is passed to it, or reads what it writes to.
 *  - Texts are octets with a length. No zero octet ends them, neither those that are passed nor those that are written.
 *
 * No call keeps anything between two calls, so calls from several threads need no lock. The functions of listings and of JSON (llrp_list,
 * llrp_list_json, llrp_next, llrp_next_json, llrp_explain, llrp_encode, llrp_encode_json and their _all), llrp_tags, llrp_forms and
 * llrp_forms_in_all take memory by malloc, and free it before they return; the others take none. Lengths are counted in octets, bits from 0, and bit 0 is the most
 * significant one of the first octet.
 */
#ifndef LLRP_H
#define LLRP_H

#include <stddef.h>
#include <stdint.h>

#ifdef __cplusplus
extern "C" {
#endif

/* The octets of a tag's word, and room enough for any text of a word and any name of a status. */
#define LLRP_WORD_OCTETS 12
#define LLRP_TEXT_ROOM 64
#define LLRP_NAME_ROOM 16

/* The greatest message: a longer frame is listed as a fault, and a longer message of a listing is refused. */
#define LLRP_MOST_OCTETS 1048576

/* What a report says of a tag, as bits of a struct llrp_tag's has. */
#define LLRP_TAG_WORD 1
#define LLRP_TAG_ANTENNA 2
#define LLRP_TAG_RSSI 4
#define LLRP_TAG_FIRST_SEEN 8
#define LLRP_TAG_COUNT 16

/* What a report says of a tag: a TagReportData of an RO_ACCESS_REPORT. What it does not say is 0. */
struct llrp_tag {
    uint64_t first_seen; /* FirstSeenTimestampUTC: microseconds since 1970-01-01T00:00:00Z */
    uint32_t has;        /* the sum of the bits LLRP_TAG_WORD to LLRP_TAG_COUNT of what is said */
    uint16_t antenna;    /* AntennaID */
    uint16_t count;      /* TagSeenCount */
    int8_t rssi;         /* PeakRSSI, in dBm */
    uint8_t text_length; /* how many octets the text has */
    uint8_t word[12];    /* the word of an EPC-96; an EPC of another length, an EPCData, is not said */
    uint8_t text[64];    /* the text of the word, as llrp_text_of_word writes it, and then zeros */
};

/* How a call ends. */
enum llrp_status {
    LLRP_OK = 0,
    LLRP_FAULTY = 1, /* some frame is not a message; the listing says which, and why */
    LLRP_BROKEN = 2, /* a length field below 10: no frame can be found there, nor after it */
    LLRP_ROOM = 3,   /* the room is too small */
    LLRP_LENGTH = 4, /* an argument does not have the length that the call needs */
    LLRP_UTF8 = 5,   /* the text is not UTF-8 */
    LLRP_LONG = 6,   /* the text has more than 96 octets, or a key or pure identity URI of a further scheme more than 72; only llrp_word_of_key, llrp_word_of_key_in_all and llrp_word_in_all return it */
    LLRP_MEMORY = 7, /* memory ran out */
    LLRP_MORE = 8,   /* the stream has less than a frame; only llrp_next and its like return it */

    /* Why a word has no tag URI: the part that fails (docs/errors.md). */
    LLRP_HEADER = 16,    /* the first eight bits are not a scheme's */
    LLRP_PARTITION = 17, /* the partition value is 7 */
    LLRP_PREFIX = 18,    /* the company prefix has too many digits */
    LLRP_REFERENCE = 19, /* the reference has too many digits */
    LLRP_ZEROS = 20,     /* bits that must be zero are not */
    LLRP_SERIAL = 21,    /* the last part is not a 1 and a serial number; only llrp_text_in_all returns it */
    LLRP_CODE = 22,      /* the code of a USDoD-96 has a wrong character or count; only llrp_text_in_all, llrp_word_in_all and llrp_word_of_key_in_all return it */

    /* The first rule that refuses a tag URI or a raw URI. */
    LLRP_START = 32,
    LLRP_SCHEME = 33,
    LLRP_PARTS = 34,
    LLRP_DIGIT = 35,
    LLRP_LEADING_ZERO = 36,
    LLRP_FILTER = 37,
    LLRP_DIGITS = 38,
    LLRP_RANGE = 39,
    LLRP_RAW_FORM = 40,
    LLRP_RAW_OF_LAWFUL = 41,

    /* Why a line of a listing is refused by itself; a rule above, where it is the text of an EPC-96. */
    LLRP_LINE = 48,
    LLRP_LEVEL = 49,
    LLRP_NAME = 50,
    LLRP_FIELDS = 51,
    LLRP_NUMBER = 52,
    LLRP_TAIL = 53,

    /* Why the message or parameter of a line, with all below it, is refused. */
    LLRP_OVER_LIMIT = 54,
    LLRP_NODE_FIELD_COUNT = 64,
    LLRP_NODE_VALUE = 65,
    LLRP_NODE_TAIL = 66,
    LLRP_NODE_MISPLACED = 67,
    LLRP_NODE_TOO_MANY = 68,
    LLRP_NODE_MISSING = 69,
    LLRP_NODE_TOO_DEEP = 70,
    LLRP_NODE_TOO_LONG = 71,

    /* Why llrp_word_of_key and llrp_word_of_key_in_all refuse a text, besides the rules of tag URIs, LLRP_LONG and LLRP_CODE. */
    LLRP_KEY_HEX = 80,    /* the text begins as no other form, and is not 24 hexadecimal digits */
    LLRP_KEY_PREFIX = 81, /* it is not known how many digits the company prefix has */
    LLRP_KEY_LENGTH = 82, /* the key has fewer digits than it has to have */
    LLRP_KEY_CHECK = 83,  /* the check digit is wrong */
    LLRP_KEY_SERIAL = 84, /* after the key comes what it does not have there */

    /* Why llrp_encode_json refuses a line, besides LLRP_LINE, LLRP_NAME, the rules of tag URIs, and why a message or parameter is refused. */
    LLRP_JSON_JSON = 96,      /* the line is not one text of JSON */
    LLRP_JSON_UNKNOWN = 97,   /* a member that such objects do not have */
    LLRP_JSON_MISSING = 98,   /* a member is not there */
    LLRP_JSON_TWICE = 99,     /* a member is there twice or more */
    LLRP_JSON_MISTYPED = 100, /* a value has another type */
    LLRP_JSON_VALUE = 101     /* a number is out of its range, or a string is not the digits of octets */
};

/* Writes the text of a tag's word to text, its length to *count, and 0 to *bit: the tag URI, as
 * urn:epc:tag:sgtin-96:3.0614141.812345.6789.
 *
 * word         the twelve octets of the word, the first the most significant
 * word_length  LLRP_WORD_OCTETS
 * text         room for the text; octets after it stay as they were
 * text_room    at least LLRP_TEXT_ROOM
 *
 * LLRP_OK, or one of LLRP_HEADER to LLRP_ZEROS where the word has no tag URI: then its raw URI is written, and *bit is the first bit
 * of the part of the word that fails. LLRP_LENGTH if word_length is wrong, else LLRP_ROOM if text_room is too small; then
 * nothing is written, and *count and *bit stay as they were. */
uint32_t llrp_text_of_word(const uint8_t *word, size_t word_length, uint8_t *text, size_t text_room, size_t *count, uint32_t *bit);

/* Writes the twelve octets of the word of a text to word.
 *
 * text         a tag URI, or the raw URI of a word that has no tag URI
 * word         room for the word
 * word_length  LLRP_WORD_OCTETS
 *
 * LLRP_OK, or the first rule that refuses the text, LLRP_START to LLRP_RAW_OF_LAWFUL. LLRP_LENGTH if word_length is not
 * LLRP_WORD_OCTETS, else LLRP_UTF8 if the text is not UTF-8. Nothing is written unless the status is LLRP_OK. */
uint32_t llrp_word_of_text(const uint8_t *text, size_t text_length, uint8_t *word, size_t word_length);

/* The same as llrp_text_of_word in the set of all schemes: a word of GIAI-96, GSRNP-96, SGCN-96, CPI-96 or USDoD-96 has its
 * tag URI too, as urn:epc:tag:giai-96:3.0614141.5678.
 *
 * word         the twelve octets of the word, the first the most significant
 * word_length  LLRP_WORD_OCTETS
 * text         room for the text; octets after it stay as they were
 * text_room    at least LLRP_TEXT_ROOM
 *
 * LLRP_OK, or one of LLRP_HEADER to LLRP_CODE where the word has no tag URI: then its raw URI is written, and *bit is the first bit
 * of the part of the word that fails. LLRP_LENGTH if word_length is wrong, else LLRP_ROOM if text_room is too small; then
 * nothing is written, and *count and *bit stay as they were. */
uint32_t llrp_text_in_all(const uint8_t *word, size_t word_length, uint8_t *text, size_t text_room, size_t *count, uint32_t *bit);

/* The same as llrp_word_of_text in the set of all schemes.
 *
 * text         a tag URI, or the raw URI of a word that has no tag URI in this set
 * word         room for the word
 * word_length  LLRP_WORD_OCTETS
 *
 * LLRP_OK, or the first rule that refuses the text, LLRP_LONG, LLRP_CODE or LLRP_START to LLRP_RAW_OF_LAWFUL. LLRP_LENGTH if word_length
 * is not LLRP_WORD_OCTETS, else LLRP_UTF8 if the text is not UTF-8. Nothing is written unless the status is LLRP_OK. */
uint32_t llrp_word_in_all(const uint8_t *text, size_t text_length, uint8_t *word, size_t word_length);

/* Writes a line for each form of a tag's word to lines, as `llrp epc --forms` prints them, and their length to *written: the name of the
 * form, a blank and the text. The names are tag, pure, element, link, hex and key (docs/tables.md); a word has tag and hex, and the others
 * where it has such texts.
 *
 * word         the twelve octets of the word, the first the most significant
 * word_length  LLRP_WORD_OCTETS
 * lines        room for the lines; octets after them stay as they were
 * lines_room   how many octets of room there are
 * written      where the number of octets of the lines is written
 *
 * LLRP_OK. LLRP_LENGTH if word_length is wrong: nothing is written to lines, *written is 0. LLRP_ROOM if the lines are longer than the
 * room: nothing is written to lines, and *written is the room that they need. LLRP_MEMORY: nothing is written, *written is 0. */
uint32_t llrp_forms(const uint8_t *word, size_t word_length, uint8_t *lines, size_t lines_room, size_t *written);

/* Writes the twelve octets of the word of a text to word, and 0 to *right. The text is read in the form that it begins as (docs/tables.md):
 * a GS1 key as an element string, as a Digital Link URI or by its name, a pure identity URI, a tag URI, a raw URI or 24 digits.
 *
 * text           the text
 * text_length    how many octets it has
 * filter         the filter value, 0 to 7, of a key or a pure identity URI, which do not say it
 * prefix_digits  how many digits the company prefix of a key has, 6 to 12, or 0 if that is not known
 * word           room for the word
 * word_length    LLRP_WORD_OCTETS
 * right          where the right check digit is written, as a character, if the status is LLRP_KEY_CHECK
 *
 * LLRP_OK, or the first rule that refuses the text: LLRP_LONG, LLRP_KEY_HEX to LLRP_KEY_SERIAL, or LLRP_START to LLRP_RAW_OF_LAWFUL.
 * LLRP_LENGTH if word_length is not LLRP_WORD_OCTETS, else LLRP_FILTER if filter is above 7, else LLRP_DIGITS if prefix_digits is neither 0
 * nor 6 to 12, else LLRP_UTF8 if the text is not UTF-8. Nothing is written to word unless the status is LLRP_OK. */
uint32_t llrp_word_of_key(const uint8_t *text, size_t text_length, uint32_t filter, uint32_t prefix_digits, uint8_t *word, size_t word_length, uint32_t *right);

/* The same as llrp_forms in the set of all schemes, as `llrp epc --forms --schemes all` prints the lines: a word of GIAI-96, GSRNP-96, SGCN-96
 * or CPI-96 has all six forms, and a word of USDoD-96 has tag, pure and hex.
 *
 * word         the twelve octets of the word, the first the most significant
 * word_length  LLRP_WORD_OCTETS
 * lines        room for the lines; octets after them stay as they were
 * lines_room   how many octets of room there are
 * written      where the number of octets of the lines is written
 *
 * LLRP_OK. LLRP_LENGTH if word_length is wrong: nothing is written to lines, *written is 0. LLRP_ROOM if the lines are longer than the
 * room: nothing is written to lines, and *written is the room that they need. LLRP_MEMORY: nothing is written, *written is 0. */
uint32_t llrp_forms_in_all(const uint8_t *word, size_t word_length, uint8_t *lines, size_t lines_room, size_t *written);

/* The same as llrp_word_of_key in the set of all schemes: the text may also be a key of GIAI-96, GSRNP-96, SGCN-96 or CPI-96, or a pure
 * identity URI or a tag URI of one of these or of USDoD-96; the raw URI of a word that has a tag URI in this set is refused.
 *
 * text           the text
 * text_length    how many octets it has
 * filter         the filter value, 0 to 7, of a key or a pure identity URI, which do not say it
 * prefix_digits  how many digits the company prefix of a key has, 6 to 12, or 0 if that is not known
 * word           room for the word
 * word_length    LLRP_WORD_OCTETS
 * right          where the right check digit is written, as a character, if the status is LLRP_KEY_CHECK
 *
 * LLRP_OK, or the first rule that refuses the text: LLRP_LONG, LLRP_CODE, LLRP_KEY_HEX to LLRP_KEY_SERIAL, or LLRP_START to
 * LLRP_RAW_OF_LAWFUL. LLRP_LENGTH if word_length is not LLRP_WORD_OCTETS, else LLRP_FILTER if filter is above 7, else LLRP_DIGITS if
 * prefix_digits is neither 0 nor 6 to 12, else LLRP_UTF8 if the text is not UTF-8. Nothing is written to word unless the status is LLRP_OK. */
uint32_t llrp_word_of_key_in_all(const uint8_t *text, size_t text_length, uint32_t filter, uint32_t prefix_digits, uint8_t *word, size_t word_length, uint32_t *right);

/* Writes the length of the first frame of a stream to *count, or 0 if the stream has fewer than the six octets that say so. The
 * frame is whole once the stream has *count octets. A length may be up to 4,294,967,295; a caller that does not want to keep that much
 * ends a connection whose frames are longer than LLRP_MOST_OCTETS.
 *
 * stream         octets of a stream, from the first one of a frame on
 * stream_length  how many there are
 * count          where the length in octets is written
 *
 * LLRP_OK, or LLRP_BROKEN if the length is below 10; then *count is 0. */
uint32_t llrp_frame_length(const uint8_t *stream, size_t stream_length, size_t *count);

/* Writes the listing of the frames that are whole in a stream to listing, as `llrp show` prints it, its length to *written, and how
 * many octets the frames have to *used. Keep the octets after these, and pass them again with what comes after them.
 *
 * stream         octets of a stream, from the first one of a frame on
 * stream_length  how many there are
 * listing        room for the listing; octets after it stay as they were
 * listing_room   how many octets of room there are
 * used           where the number of octets of the stream that were listed is written
 * written        where the number of octets of the listing is written
 *
 * LLRP_OK if each frame is a message, and LLRP_FAULTY if some are not. LLRP_BROKEN if a length field below 10 comes after
 * the whole frames: their listing ends with the line ! BROKEN, and all of the stream is used.
 * LLRP_ROOM if the listing is longer than the room: nothing is written to listing, *used is 0, and *written is the room that the
 * listing needs; call again with that much, or with fewer octets of the stream. LLRP_MEMORY: nothing is written, both counts are 0. */
uint32_t llrp_list(const uint8_t *stream, size_t stream_length, uint8_t *listing, size_t listing_room, size_t *used, size_t *written);

/* The same with every message and parameter of LLRP 1.1, as `llrp show --all` lists them, in place of those of the profile. */
uint32_t llrp_list_all(const uint8_t *stream, size_t stream_length, uint8_t *listing, size_t listing_room, size_t *used, size_t *written);

/* Writes the whole frames of a stream as lines of JSON, as `llrp show --json` prints them (docs/json.md), and all else as llrp_list does
 * with the listing: a break is the line {"broken":true}.
 *
 * lines       room for the lines; octets after them stay as they were
 * lines_room  how many octets of room there are
 * written     where the number of octets of the lines is written */
uint32_t llrp_list_json(const uint8_t *stream, size_t stream_length, uint8_t *lines, size_t lines_room, size_t *used, size_t *written);

/* The same with every message and parameter of LLRP 1.1, as `llrp show --all --json` prints them. */
uint32_t llrp_list_json_all(const uint8_t *stream, size_t stream_length, uint8_t *lines, size_t lines_room, size_t *used, size_t *written);

/* Writes the listing of the first frame of a stream to listing, as `llrp show` prints it, its length to *written, and how many octets the
 * frame has to *used. Call it again with the octets after these, so that no frame is read twice.
 *
 * stream         octets of a stream, from the first one of a frame on
 * stream_length  how many there are
 * listing        room for the listing; octets after it stay as they were
 * listing_room   how many octets of room there are
 * used           where the number of octets of the frame is written
 * written        where the number of octets of the listing is written
 *
 * LLRP_OK if the frame is a message, and LLRP_FAULTY if it is not. LLRP_BROKEN if the stream begins with a length field below 10: the
 * listing is the line ! BROKEN, and all of the stream is used. LLRP_MORE if there is less than a frame: nothing is written, both counts
 * are 0; call again with the same octets and what comes after them.
 * LLRP_ROOM if the listing is longer than the room: nothing is written to listing, *used is 0, and *written is the room that the
 * listing needs. LLRP_MEMORY: nothing is written, both counts are 0. */
uint32_t llrp_next(const uint8_t *stream, size_t stream_length, uint8_t *listing, size_t listing_room, size_t *used, size_t *written);

/* The same with every message and parameter of LLRP 1.1, as `llrp show --all` lists them, in place of those of the profile. */
uint32_t llrp_next_all(const uint8_t *stream, size_t stream_length, uint8_t *listing, size_t listing_room, size_t *used, size_t *written);

/* Writes the first frame of a stream as a line of JSON, as `llrp show --json` prints it (docs/json.md), and all else as llrp_next does with
 * the listing: a break is the line {"broken":true}.
 *
 * lines       room for the line; octets after it stay as they were
 * lines_room  how many octets of room there are
 * written     where the number of octets of the line is written */
uint32_t llrp_next_json(const uint8_t *stream, size_t stream_length, uint8_t *lines, size_t lines_room, size_t *used, size_t *written);

/* The same with every message and parameter of LLRP 1.1, as `llrp show --all --json` prints them. */
uint32_t llrp_next_json_all(const uint8_t *stream, size_t stream_length, uint8_t *lines, size_t lines_room, size_t *used, size_t *written);

/* Writes what `llrp explain` prints of octets to text, and its length to *written: of each frame that is a message a line for each field, with
 * its bit, width, level, name and value, and of any other frame the fields before its first fault, those that are refused, and a sentence with
 * what stands there and what may. Of less than a frame at the end there is the line ? N, and of a length field below 10 the line ! BROKEN.
 *
 * octets         the octets of one frame, or of a stream from the first one of a frame on, lawful or not
 * octets_length  how many there are
 * text           room for the text; octets after it stay as they were
 * text_room      how many octets of room there are
 * written        where the number of octets of the text is written
 *
 * LLRP_OK if the octets are frames, each of them whole and a message; else LLRP_FAULTY, and the text says why.
 * LLRP_ROOM if the text is longer than the room: nothing is written to text, and *written is the room that it needs.
 * LLRP_MEMORY: nothing is written, *written is 0. */
uint32_t llrp_explain(const uint8_t *octets, size_t octets_length, uint8_t *text, size_t text_room, size_t *written);

/* The same with every message and parameter of LLRP 1.1, as `llrp explain --all` has them, in place of those of the profile. */
uint32_t llrp_explain_all(const uint8_t *octets, size_t octets_length, uint8_t *text, size_t text_room, size_t *written);

/* Writes what a report says of its tags to tags, one for each TagReportData and in their order, and how many they are to *written.
 *
 * frame         the octets of one frame, as many as llrp_next used of a stream
 * frame_length  how many there are
 * tags          room for the tags; those after them stay as they were
 * tags_room     how many tags there is room for
 * written       where the number of tags is written
 *
 * LLRP_OK if the frame is a message of LLRP 1.1, of the profile or not; any but an RO_ACCESS_REPORT has no tags. LLRP_LENGTH if the octets
 * are not exactly one frame, and LLRP_FAULTY if the frame is not a message: nothing is written to tags, *written is 0. LLRP_ROOM if there
 * are more tags than the room has: nothing is written to tags, and *written is the room that they need.
 * LLRP_MEMORY: nothing is written, *written is 0. */
uint32_t llrp_tags(const uint8_t *frame, size_t frame_length, struct llrp_tag *tags, size_t tags_room, size_t *written);

/* Writes the octets of the messages of a listing, as `llrp encode` does, to octets, how many they are to *written, and 0 to *line.
 *
 * listing         lines as `llrp show` prints them, each ended by a line feed
 * listing_length  how many octets the listing has
 * octets          room for the octets of the messages; octets after them stay as they were
 * octets_room     how many octets of room there are
 * written         where the number of octets of the messages is written
 * line            where the number of the refused line is written
 *
 * LLRP_OK, or the first reason for which the listing is refused, LLRP_START to LLRP_RAW_OF_LAWFUL or LLRP_LINE to LLRP_NODE_TOO_LONG,
 * and *line is its line, counted from 1; nothing is written to octets, and *written is 0. A message longer than LLRP_MOST_OCTETS is
 * LLRP_NODE_TOO_LONG. LLRP_OVER_LIMIT, LLRP_NODE_FIELD_COUNT and LLRP_NODE_TOO_DEEP never come from here: there is no other limit, and
 * LLRP_FIELDS and LLRP_LEVEL come first.
 * LLRP_ROOM if there are more octets than the room has: nothing is written to octets, and *written is the room that they need.
 * LLRP_MEMORY: nothing is written, *written and *line are 0. */
uint32_t llrp_encode(const uint8_t *listing, size_t listing_length, uint8_t *octets, size_t octets_room, size_t *written, uint64_t *line);

/* The same with every message and parameter of LLRP 1.1, as `llrp encode --all` takes them, in place of those of the profile. */
uint32_t llrp_encode_all(const uint8_t *listing, size_t listing_length, uint8_t *octets, size_t octets_room, size_t *written, uint64_t *line);

/* Writes the octets of the messages that lines of JSON say, as `llrp encode --json` does, to octets, how many they are to *written, and 0 to
 * *line and to *path_written. docs/json.md says what a line may be; the last one may lack its line feed.
 *
 * lines         objects of messages as `llrp show --json` prints them, a line each, with the members in any order
 * lines_length  how many octets the lines have
 * octets        room for the octets of the messages; octets after them stay as they were
 * octets_room   how many octets of room there are
 * written       where the number of octets of the messages is written
 * line          where the number of the refused line is written
 * path          room for the path of the member at which a line is refused, as parameters[0].AntennaID
 * path_room     how many octets of room there are
 * path_written  where the number of octets of the path is written
 *
 * LLRP_OK, or the first reason for which a line is refused: LLRP_LINE if it has more than 64 times LLRP_MOST_OCTETS, LLRP_NAME,
 * LLRP_JSON_JSON to LLRP_JSON_VALUE, LLRP_START to LLRP_RAW_OF_LAWFUL, or LLRP_OVER_LIMIT to LLRP_NODE_TOO_LONG. Then *line is its number, counted from 1, and
 * *path_written the length of the path, 0 where the reason concerns the whole line; the path is printable ASCII, and is written where the
 * room has as many octets; nothing is written to octets, and *written is 0.
 * LLRP_ROOM if there are more octets than the room has: nothing is written to octets, and *written is the room that they need.
 * LLRP_MEMORY: nothing is written, *written, *line and *path_written are 0. */
uint32_t llrp_encode_json(const uint8_t *lines, size_t lines_length, uint8_t *octets, size_t octets_room, size_t *written, uint64_t *line, uint8_t *path, size_t path_room, size_t *path_written);

/* The same with every message and parameter of LLRP 1.1, as `llrp encode --all --json` takes them. */
uint32_t llrp_encode_json_all(const uint8_t *lines, size_t lines_length, uint8_t *octets, size_t octets_room, size_t *written, uint64_t *line, uint8_t *path, size_t path_room, size_t *path_written);

/* Writes the name of a status to name, such as LeadingZero or Node Missing, and returns its length. docs/errors.md explains the names.
 *
 * status     what one of the other functions returned
 * name       room for the name; octets after it stay as they were
 * name_room  at least LLRP_NAME_ROOM
 *
 * 0 if name_room is smaller or no status has the code; then nothing is written. */
size_t llrp_name(uint32_t status, uint8_t *name, size_t name_room);

#ifdef __cplusplus
}
#endif

#endif
