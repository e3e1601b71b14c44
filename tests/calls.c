/* Calls each function of include/llrp.h, once with enough room and once with too little. tests/library.py builds it, and it takes
 * no argument. The types below are those that the library has, so a declaration with other ones does not compile. */
#include "llrp.h"

#include <stdio.h>
#include <string.h>

static uint32_t (*const text_of_word)(const uint8_t *, size_t, uint8_t *, size_t, size_t *, uint32_t *) = llrp_text_of_word;
static uint32_t (*const word_of_text)(const uint8_t *, size_t, uint8_t *, size_t) = llrp_word_of_text;
static uint32_t (*const frame_length)(const uint8_t *, size_t, size_t *) = llrp_frame_length;
static uint32_t (*const list)(const uint8_t *, size_t, uint8_t *, size_t, size_t *, size_t *) = llrp_list;
static uint32_t (*const list_all)(const uint8_t *, size_t, uint8_t *, size_t, size_t *, size_t *) = llrp_list_all;
static uint32_t (*const list_json)(const uint8_t *, size_t, uint8_t *, size_t, size_t *, size_t *) = llrp_list_json;
static uint32_t (*const list_json_all)(const uint8_t *, size_t, uint8_t *, size_t, size_t *, size_t *) = llrp_list_json_all;
static uint32_t (*const next)(const uint8_t *, size_t, uint8_t *, size_t, size_t *, size_t *) = llrp_next;
static uint32_t (*const next_all)(const uint8_t *, size_t, uint8_t *, size_t, size_t *, size_t *) = llrp_next_all;
static uint32_t (*const next_json)(const uint8_t *, size_t, uint8_t *, size_t, size_t *, size_t *) = llrp_next_json;
static uint32_t (*const next_json_all)(const uint8_t *, size_t, uint8_t *, size_t, size_t *, size_t *) = llrp_next_json_all;
static uint32_t (*const explain)(const uint8_t *, size_t, uint8_t *, size_t, size_t *) = llrp_explain;
static uint32_t (*const explain_all)(const uint8_t *, size_t, uint8_t *, size_t, size_t *) = llrp_explain_all;
static uint32_t (*const tags)(const uint8_t *, size_t, struct llrp_tag *, size_t, size_t *) = llrp_tags;
static uint32_t (*const encode)(const uint8_t *, size_t, uint8_t *, size_t, size_t *, uint64_t *) = llrp_encode;
static uint32_t (*const encode_all)(const uint8_t *, size_t, uint8_t *, size_t, size_t *, uint64_t *) = llrp_encode_all;
static uint32_t (*const encode_json)(const uint8_t *, size_t, uint8_t *, size_t, size_t *, uint64_t *, uint8_t *, size_t, size_t *) = llrp_encode_json;
static uint32_t (*const encode_json_all)(const uint8_t *, size_t, uint8_t *, size_t, size_t *, uint64_t *, uint8_t *, size_t, size_t *) = llrp_encode_json_all;
static uint32_t (*const text_in_all)(const uint8_t *, size_t, uint8_t *, size_t, size_t *, uint32_t *) = llrp_text_in_all;
static uint32_t (*const word_in_all)(const uint8_t *, size_t, uint8_t *, size_t) = llrp_word_in_all;
static uint32_t (*const forms)(const uint8_t *, size_t, uint8_t *, size_t, size_t *) = llrp_forms;
static uint32_t (*const word_of_key)(const uint8_t *, size_t, uint32_t, uint32_t, uint8_t *, size_t, uint32_t *) = llrp_word_of_key;
static uint32_t (*const forms_in_all)(const uint8_t *, size_t, uint8_t *, size_t, size_t *) = llrp_forms_in_all;
static uint32_t (*const word_of_key_in_all)(const uint8_t *, size_t, uint32_t, uint32_t, uint8_t *, size_t, uint32_t *) = llrp_word_of_key_in_all;
static size_t (*const name_of)(uint32_t, uint8_t *, size_t) = llrp_name;

/* The word, its text, two frames and an octet of the next, and their listing. */
static const uint8_t WORD[] = {0x30, 0x74, 0x25, 0x7B, 0xF7, 0x19, 0x4E, 0x40, 0x00, 0x00, 0x1A, 0x85};
static const char TEXT[] = "urn:epc:tag:sgtin-96:3.0614141.812345.6789";
static const uint8_t STREAM[] = {8, 0x3E, 0, 0, 0, 10, 0, 0, 0, 7, 8, 0x3E, 0, 0, 0, 10, 0, 0, 0, 8, 8};
static const char LISTING[] = "0 KEEPALIVE 2 7\n0 KEEPALIVE 2 8\n";
static const char REFUSED[] = "0 KEEPALIVE 2 7\n0 KEEPALIV 2 7\n";
/* A word of SGCN-96 and its text, the same word without a serial number, and its raw URI. */
static const uint8_t COUPON[] = {0x3F, 0x74, 0xF4, 0xE4, 0xE6, 0x12, 0x64, 0x00, 0x00, 0x01, 0x99, 0x07};
static const char COUPON_TEXT[] = "urn:epc:tag:sgcn-96:3.4012345.67890.04711";
static const uint8_t NO_COUPON[] = {0x3F, 0x74, 0xF4, 0xE4, 0xE6, 0x12, 0x64, 0x00, 0x00, 0x00, 0x00, 0x01};
static const char NO_COUPON_TEXT[] = "urn:epc:raw:96.x3F74F4E4E612640000000001", COUPON_RAW[] = "urn:epc:raw:96.x3F74F4E4E612640000019907";
/* A word of USDoD-96 and its text, and a text whose code has an I. */
static const uint8_t SUPPLIER[] = {0x2F, 0x32, 0x03, 0x25, 0x33, 0x13, 0x93, 0x42, 0xDF, 0xDC, 0x1C, 0x35};
static const char SUPPLIER_TEXT[] = "urn:epc:tag:usdod-96:3.2S194.12345678901", NO_CODE[] = "urn:epc:tag:usdod-96:3.2I194.12345678901";
/* The forms of the word, its key, and the key with a wrong check digit. */
static const char FORMS[] = "tag urn:epc:tag:sgtin-96:3.0614141.812345.6789\npure urn:epc:id:sgtin:0614141.812345.6789\n"
                            "element (01)80614141123458(21)6789\nlink https://id.gs1.org/01/80614141123458/21/6789\n"
                            "hex 3074257BF7194E4000001A85\nkey gtin 80614141123458 6789\n";
static const char KEY[] = "(01)80614141123458(21)6789", WRONG_KEY[] = "(01)80614141123451(21)6789";
/* The forms of that word of SGCN-96, its key, the key with a wrong check digit, and the key of a CPI-96 with its word. */
static const char COUPON_FORMS[] = "tag urn:epc:tag:sgcn-96:3.4012345.67890.04711\npure urn:epc:id:sgcn:4012345.67890.04711\n"
                                   "element (255)401234567890104711\nlink https://id.gs1.org/255/401234567890104711\n"
                                   "hex 3F74F4E4E612640000019907\nkey gcn 4012345678901 04711\n";
static const char COUPON_KEY[] = "(255)401234567890104711", WRONG_COUPON[] = "(255)401234567890204711";
static const char PART_KEY[] = "cpi 061414198765 12345";
static const uint8_t PART[] = {0x3C, 0x74, 0x25, 0x7B, 0xF4, 0x00, 0xC0, 0xE6, 0x80, 0x00, 0x30, 0x39};
/* A message that the profile leaves out: GET_READER_CAPABILITIES, number 1, of eleven octets, which asks for all. */
static const uint8_t REQUEST[] = {8, 1, 0, 0, 0, 11, 0, 0, 0, 7, 0};
static const char FAULT[] = "! 7 6 MessageType\n";
static const char REQUEST_LISTING[] = "0 GET_READER_CAPABILITIES 2 7 0\n";
/* The same as lines of JSON. */
static const char LINES[] = "{\"message\":\"KEEPALIVE\",\"version\":2,\"id\":7}\n{\"message\":\"KEEPALIVE\",\"version\":2,\"id\":8}\n";
static const char FAULT_LINE[] = "{\"fault\":\"MessageType\",\"id\":7,\"bit\":6}\n";
static const char REQUEST_LINE[] = "{\"message\":\"GET_READER_CAPABILITIES\",\"version\":2,\"id\":7,\"RequestedData\":0}\n";
/* The fields of the first frame, of both with the octet after them, and of that message, with the profile alone too. */
#define COLUMNS "BIT WIDTH LEVEL FIELD VALUE\n"
#define KEEPALIVE_LINES "0 3 0 reserved 0\n3 3 0 Version 2\n6 10 0 MessageType 62\tKEEPALIVE\n16 32 0 MessageLength 10\n48 32 0 MessageID "
static const char EXPLAINED[] = "frame 1, 10 octets\n" COLUMNS KEEPALIVE_LINES "7\n";
static const char STREAM_EXPLAINED[] = "frame 1, 10 octets\n" COLUMNS KEEPALIVE_LINES "7\nframe 2, 10 octets\n" COLUMNS KEEPALIVE_LINES "8\n? 1\n";
static const char FAULT_EXPLAINED[] = "frame 1, 11 octets\n" COLUMNS "then, refused:\n0 3 0 reserved 0\n3 3 0 Version 2\n6 10 0 MessageType 1\n"
                                      "fault at bit 6, octet 0: MessageType: 1 is of no message of the profile\n";
static const char REQUEST_EXPLAINED[] = "frame 1, 11 octets\n" COLUMNS "0 3 0 reserved 0\n3 3 0 Version 2\n6 10 0 MessageType 1\tGET_READER_CAPABILITIES\n"
                                        "16 32 0 MessageLength 11\n48 32 0 MessageID 7\n80 8 0 RequestedData 0\tAll\n";
/* A report of a tag of which all is said that a struct llrp_tag has, with a custom parameter, and of one of which only an EPCData of
 * eight bits is. */
static const uint8_t REPORT[] = {4, 61, 0, 0, 0, 70, 0, 0, 0, 1,
                                 0, 240, 0, 49, 0x8D, 0x30, 0x74, 0x25, 0x7B, 0xF7, 0x19, 0x4E, 0x40, 0, 0, 0x1A, 0x85, 0x81, 0, 2,
                                 0x86, 0xC4, 0x82, 0, 5, 0xAF, 0x31, 7, 0xA4, 0, 0, 0x88, 0xFF, 0xFE,
                                 3, 255, 0, 15, 0, 0, 0x65, 0x1A, 0, 0, 0, 1, 1, 2, 3,
                                 0, 240, 0, 11, 0, 241, 0, 7, 0, 8, 0xAB};
/* Lines of which the second has a member that a KEEPALIVE does not have, its name, and room for more of a path. */
static const char WRONG_LINES[] = "{\"id\":7,\"version\":2,\"message\":\"KEEPALIVE\"}\n{\"message\":\"KEEPALIVE\",\"version\":2,\"id\":8,\"Seen\":1}\n";
static uint8_t path[8] = "........";
enum { TEXT_LENGTH = sizeof TEXT - 1, LISTING_LENGTH = sizeof LISTING - 1, REQUEST_LENGTH = sizeof REQUEST_LISTING - 1, FRAMES_LENGTH = 20, FORMS_LENGTH = sizeof FORMS - 1, KEY_LENGTH = sizeof KEY - 1, UNTOUCHED = 0xA5 };

static int passed, failed;
static uint8_t out[512];

/* Fills the room, so that what a call writes beyond its answer is seen. */
static void clear(void) { memset(out, UNTOUCHED, sizeof out); }

/* Whether the room has these octets, and nothing was written after them. */
static int holds(const void *octets, size_t length) {
    for (size_t i = length; i < sizeof out; i++) {
        if (out[i] != UNTOUCHED) return 0;
    }
    return memcmp(out, octets, length) == 0;
}

static void check(const char *what, int is_right) {
    passed += is_right;
    failed += !is_right;
    if (!is_right) printf("WRONG: %s\n", what);
    clear();
}

static const uint8_t *octets_of(const char *text) { return (const uint8_t *)text; }

static void check_tags(void) {
    size_t count = 99;
    uint32_t bit = 99, status = text_of_word(WORD, sizeof WORD, out, LLRP_TEXT_ROOM, &count, &bit);
    check("text", status == LLRP_OK && count == TEXT_LENGTH && bit == 0 && holds(TEXT, TEXT_LENGTH));
    status = text_of_word(WORD, sizeof WORD, out, LLRP_TEXT_ROOM - 1, &count, &bit);
    check("text, too little room", status == LLRP_ROOM && holds("", 0));
    status = word_of_text(octets_of(TEXT), TEXT_LENGTH, out, LLRP_WORD_OCTETS);
    check("word", status == LLRP_OK && holds(WORD, sizeof WORD));
    status = word_of_text(octets_of(TEXT), TEXT_LENGTH, out, LLRP_WORD_OCTETS - 1);
    check("word, too little room", status == LLRP_LENGTH && holds("", 0));
    check("name", name_of(LLRP_NODE_MISSING, out, LLRP_NAME_ROOM) == 12 && holds("Node Missing", 12));
    check("name, too little room", name_of(LLRP_NODE_MISSING, out, LLRP_NAME_ROOM - 1) == 0 && holds("", 0));
}

static void check_all_schemes(void) {
    enum { COUPON_LENGTH = sizeof COUPON_TEXT - 1, RAW_LENGTH = sizeof COUPON_RAW - 1 };
    size_t count = 99;
    uint32_t bit = 99, status = text_in_all(COUPON, sizeof COUPON, out, LLRP_TEXT_ROOM, &count, &bit);
    check("text of a coupon", status == LLRP_OK && count == COUPON_LENGTH && bit == 0 && holds(COUPON_TEXT, COUPON_LENGTH));
    status = text_in_all(NO_COUPON, sizeof NO_COUPON, out, LLRP_TEXT_ROOM, &count, &bit);
    check("no serial number", status == LLRP_SERIAL && count == RAW_LENGTH && bit == 55 && holds(NO_COUPON_TEXT, RAW_LENGTH));
    status = text_in_all(COUPON, sizeof COUPON, out, LLRP_TEXT_ROOM - 1, &count, &bit);
    check("text of a coupon, too little room", status == LLRP_ROOM && bit == 55 && holds("", 0));
    status = text_of_word(COUPON, sizeof COUPON, out, LLRP_TEXT_ROOM, &count, &bit);
    check("a coupon among the seven schemes", status == LLRP_HEADER && bit == 0 && holds(COUPON_RAW, RAW_LENGTH));
    status = word_in_all(octets_of(COUPON_TEXT), COUPON_LENGTH, out, LLRP_WORD_OCTETS);
    check("word of a coupon", status == LLRP_OK && holds(COUPON, sizeof COUPON));
    status = word_in_all(octets_of(COUPON_RAW), RAW_LENGTH, out, LLRP_WORD_OCTETS);
    check("the raw URI of a coupon", status == LLRP_RAW_OF_LAWFUL && holds("", 0));
    status = text_in_all(SUPPLIER, sizeof SUPPLIER, out, LLRP_TEXT_ROOM, &count, &bit);
    check("text of a supplier", status == LLRP_OK && bit == 0 && holds(SUPPLIER_TEXT, sizeof SUPPLIER_TEXT - 1));
    status = word_in_all(octets_of(NO_CODE), sizeof NO_CODE - 1, out, LLRP_WORD_OCTETS);
    check("no code", status == LLRP_CODE && holds("", 0));
    status = word_in_all(octets_of(COUPON_TEXT), COUPON_LENGTH, out, LLRP_WORD_OCTETS - 1);
    check("word of a coupon, too little room", status == LLRP_LENGTH && holds("", 0));
}

static void check_keys(void) {
    size_t written = 99;
    check("forms", forms(WORD, sizeof WORD, out, FORMS_LENGTH, &written) == LLRP_OK && written == FORMS_LENGTH && holds(FORMS, FORMS_LENGTH));
    check("forms, too little room", forms(WORD, sizeof WORD, out, FORMS_LENGTH - 1, &written) == LLRP_ROOM && written == FORMS_LENGTH && holds("", 0));
    check("forms of eleven octets", forms(WORD, sizeof WORD - 1, out, FORMS_LENGTH, &written) == LLRP_LENGTH && written == 0 && holds("", 0));
    uint32_t right = 99, status = word_of_key(octets_of(KEY), KEY_LENGTH, 3, 7, out, LLRP_WORD_OCTETS, &right);
    check("word of a key", status == LLRP_OK && right == 0 && holds(WORD, sizeof WORD));
    status = word_of_key(octets_of(WRONG_KEY), KEY_LENGTH, 3, 7, out, LLRP_WORD_OCTETS, &right);
    check("a wrong check digit", status == LLRP_KEY_CHECK && right == '8' && holds("", 0));
    status = word_of_key(octets_of(KEY), KEY_LENGTH, 3, 0, out, LLRP_WORD_OCTETS, &right);
    check("an unknown company prefix", status == LLRP_KEY_PREFIX && right == 0 && holds("", 0));
    status = word_of_key(octets_of(KEY), KEY_LENGTH, 8, 7, out, LLRP_WORD_OCTETS, &right);
    check("no filter value", status == LLRP_FILTER && holds("", 0));
    status = word_of_key(octets_of(KEY), KEY_LENGTH, 3, 7, out, LLRP_WORD_OCTETS - 1, &right);
    check("word of a key, too little room", status == LLRP_LENGTH && right == 0 && holds("", 0));
}

static void check_keys_in_all(void) {
    enum { LENGTH = sizeof COUPON_FORMS - 1, COUPON_KEY_LENGTH = sizeof COUPON_KEY - 1 };
    size_t written = 99;
    uint32_t status = forms_in_all(COUPON, sizeof COUPON, out, LENGTH, &written);
    check("forms of a coupon", status == LLRP_OK && written == LENGTH && holds(COUPON_FORMS, LENGTH));
    status = forms_in_all(COUPON, sizeof COUPON, out, LENGTH - 1, &written);
    check("forms of a coupon, too little room", status == LLRP_ROOM && written == LENGTH && holds("", 0));
    status = forms_in_all(COUPON, sizeof COUPON - 1, out, LENGTH, &written);
    check("forms of eleven octets in all schemes", status == LLRP_LENGTH && written == 0 && holds("", 0));
    status = forms_in_all(WORD, sizeof WORD, out, FORMS_LENGTH, &written);
    check("forms in all schemes", status == LLRP_OK && written == FORMS_LENGTH && holds(FORMS, FORMS_LENGTH));
    uint32_t right = 99;
    status = word_of_key_in_all(octets_of(COUPON_KEY), COUPON_KEY_LENGTH, 3, 7, out, LLRP_WORD_OCTETS, &right);
    check("word of a coupon's key", status == LLRP_OK && right == 0 && holds(COUPON, sizeof COUPON));
    status = word_of_key_in_all(octets_of(WRONG_COUPON), COUPON_KEY_LENGTH, 3, 7, out, LLRP_WORD_OCTETS, &right);
    check("a coupon's wrong check digit", status == LLRP_KEY_CHECK && right == '1' && holds("", 0));
    status = word_of_key_in_all(octets_of(COUPON_KEY), COUPON_KEY_LENGTH, 3, 0, out, LLRP_WORD_OCTETS, &right);
    check("a coupon's unknown company prefix", status == LLRP_KEY_PREFIX && right == 0 && holds("", 0));
    status = word_of_key_in_all(octets_of(PART_KEY), sizeof PART_KEY - 1, 3, 7, out, LLRP_WORD_OCTETS, &right);
    check("word of a part's key", status == LLRP_OK && right == 0 && holds(PART, sizeof PART));
    status = word_of_key_in_all(octets_of(KEY), KEY_LENGTH, 3, 7, out, LLRP_WORD_OCTETS, &right);
    check("word of a key in all schemes", status == LLRP_OK && right == 0 && holds(WORD, sizeof WORD));
    status = word_of_key_in_all(octets_of(COUPON_KEY), COUPON_KEY_LENGTH, 8, 7, out, LLRP_WORD_OCTETS, &right);
    check("no filter value in all schemes", status == LLRP_FILTER && holds("", 0));
    status = word_of_key_in_all(octets_of(COUPON_KEY), COUPON_KEY_LENGTH, 3, 7, out, LLRP_WORD_OCTETS - 1, &right);
    check("word of a coupon's key, too little room", status == LLRP_LENGTH && right == 0 && holds("", 0));
    status = word_of_key(octets_of(COUPON_KEY), COUPON_KEY_LENGTH, 3, 7, out, LLRP_WORD_OCTETS, &right);
    check("a coupon's key among the seven schemes", status == LLRP_START && holds("", 0));
}

static void check_streams(void) {
    size_t count = 99, used = 99, written = 99;
    uint64_t line = 99;
    check("length", frame_length(STREAM, sizeof STREAM, &count) == LLRP_OK && count == 10);
    check("length, too few octets", frame_length(STREAM, 5, &count) == LLRP_OK && count == 0);
    uint32_t status = list(STREAM, sizeof STREAM, out, LISTING_LENGTH, &used, &written);
    check("list", status == LLRP_OK && used == FRAMES_LENGTH && written == LISTING_LENGTH && holds(LISTING, LISTING_LENGTH));
    status = list(STREAM, sizeof STREAM, out, LISTING_LENGTH - 1, &used, &written);
    check("list, too little room", status == LLRP_ROOM && used == 0 && written == LISTING_LENGTH && holds("", 0));
    status = encode(octets_of(LISTING), LISTING_LENGTH, out, FRAMES_LENGTH, &written, &line);
    check("encode", status == LLRP_OK && written == FRAMES_LENGTH && line == 0 && holds(STREAM, FRAMES_LENGTH));
    status = encode(octets_of(LISTING), LISTING_LENGTH, out, FRAMES_LENGTH - 1, &written, &line);
    check("encode, too little room", status == LLRP_ROOM && written == FRAMES_LENGTH && line == 0 && holds("", 0));
    status = encode(octets_of(REFUSED), sizeof REFUSED - 1, out, sizeof out, &written, &line);
    check("encode, a line that is refused", status == LLRP_NAME && written == 0 && line == 2 && holds("", 0));
}

static void check_all(void) {
    size_t used = 99, written = 99;
    uint64_t line = 99;
    uint32_t status = list(REQUEST, sizeof REQUEST, out, sizeof out, &used, &written);
    check("list of another message", status == LLRP_FAULTY && used == sizeof REQUEST && holds(FAULT, sizeof FAULT - 1));
    status = list_all(REQUEST, sizeof REQUEST, out, REQUEST_LENGTH, &used, &written);
    check("list all", status == LLRP_OK && used == sizeof REQUEST && written == REQUEST_LENGTH && holds(REQUEST_LISTING, REQUEST_LENGTH));
    status = list_all(REQUEST, sizeof REQUEST, out, REQUEST_LENGTH - 1, &used, &written);
    check("list all, too little room", status == LLRP_ROOM && used == 0 && written == REQUEST_LENGTH && holds("", 0));
    status = encode(octets_of(REQUEST_LISTING), REQUEST_LENGTH, out, sizeof out, &written, &line);
    check("encode another message", status == LLRP_NAME && written == 0 && line == 1 && holds("", 0));
    status = encode_all(octets_of(REQUEST_LISTING), REQUEST_LENGTH, out, sizeof REQUEST, &written, &line);
    check("encode all", status == LLRP_OK && written == sizeof REQUEST && line == 0 && holds(REQUEST, sizeof REQUEST));
    status = encode_all(octets_of(REQUEST_LISTING), REQUEST_LENGTH, out, sizeof REQUEST - 1, &written, &line);
    check("encode all, too little room", status == LLRP_ROOM && written == sizeof REQUEST && line == 0 && holds("", 0));
}

static void check_json(void) {
    size_t used = 99, written = 99;
    uint32_t status = list_json(STREAM, sizeof STREAM, out, sizeof out, &used, &written);
    check("lines of JSON", status == LLRP_OK && used == FRAMES_LENGTH && written == sizeof LINES - 1 && holds(LINES, sizeof LINES - 1));
    status = list_json(STREAM, sizeof STREAM, out, sizeof LINES - 2, &used, &written);
    check("lines of JSON, too little room", status == LLRP_ROOM && used == 0 && written == sizeof LINES - 1 && holds("", 0));
    status = list_json(REQUEST, sizeof REQUEST, out, sizeof out, &used, &written);
    check("line of another message", status == LLRP_FAULTY && used == sizeof REQUEST && holds(FAULT_LINE, sizeof FAULT_LINE - 1));
    status = list_json_all(REQUEST, sizeof REQUEST, out, sizeof out, &used, &written);
    check("lines of JSON of all", status == LLRP_OK && used == sizeof REQUEST && holds(REQUEST_LINE, sizeof REQUEST_LINE - 1));
}

/* The first frame and its end are the parts of what list says of both. */
static void check_next(void) {
    const size_t first = strchr(LISTING, '\n') - LISTING + 1, first_line = strchr(LINES, '\n') - LINES + 1;
    const uint8_t broken[] = {8, 0x3E, 0, 0, 0, 9, 0, 0, 0, 7, 8};
    size_t used = 99, written = 99;
    uint32_t status = next(STREAM, sizeof STREAM, out, first, &used, &written);
    check("next", status == LLRP_OK && used == 10 && written == first && holds(LISTING, first));
    status = next(STREAM, sizeof STREAM, out, first - 1, &used, &written);
    check("next, too little room", status == LLRP_ROOM && used == 0 && written == first && holds("", 0));
    status = next(STREAM, 9, out, sizeof out, &used, &written);
    check("next of nine octets", status == LLRP_MORE && used == 0 && written == 0 && holds("", 0));
    status = next(STREAM + FRAMES_LENGTH, 1, out, sizeof out, &used, &written);
    check("next of one octet", status == LLRP_MORE && used == 0 && written == 0 && holds("", 0));
    status = next(broken, sizeof broken, out, sizeof out, &used, &written);
    check("next of a break", status == LLRP_BROKEN && used == sizeof broken && written == 9 && holds("! BROKEN\n", 9));
    status = next(REQUEST, sizeof REQUEST, out, sizeof out, &used, &written);
    check("next, another message", status == LLRP_FAULTY && used == sizeof REQUEST && holds(FAULT, sizeof FAULT - 1));
    status = next_all(REQUEST, sizeof REQUEST, out, sizeof out, &used, &written);
    check("next of all", status == LLRP_OK && used == sizeof REQUEST && holds(REQUEST_LISTING, REQUEST_LENGTH));
    status = next_json(STREAM, sizeof STREAM, out, sizeof out, &used, &written);
    check("next in JSON", status == LLRP_OK && used == 10 && written == first_line && holds(LINES, first_line));
    status = next_json_all(REQUEST, sizeof REQUEST, out, sizeof out, &used, &written);
    check("next of all in JSON", status == LLRP_OK && used == sizeof REQUEST && holds(REQUEST_LINE, sizeof REQUEST_LINE - 1));
}

static void check_explain(void) {
    enum { LENGTH = sizeof EXPLAINED - 1, STREAM_LENGTH = sizeof STREAM_EXPLAINED - 1, FAULT_LENGTH = sizeof FAULT_EXPLAINED - 1, ALL_LENGTH = sizeof REQUEST_EXPLAINED - 1 };
    const uint8_t broken[] = {8, 0x3E, 0, 0, 0, 9, 0, 0, 0, 7, 8};
    size_t written = 99;
    uint32_t status = explain(STREAM, 10, out, LENGTH, &written);
    check("explain", status == LLRP_OK && written == LENGTH && holds(EXPLAINED, LENGTH));
    status = explain(STREAM, 10, out, LENGTH - 1, &written);
    check("explain, too little room", status == LLRP_ROOM && written == LENGTH && holds("", 0));
    status = explain(STREAM, sizeof STREAM, out, sizeof out, &written);
    check("explain less than a frame", status == LLRP_FAULTY && written == STREAM_LENGTH && holds(STREAM_EXPLAINED, STREAM_LENGTH));
    status = explain(broken, sizeof broken, out, sizeof out, &written);
    check("explain a break", status == LLRP_FAULTY && written == 9 && holds("! BROKEN\n", 9));
    status = explain(STREAM, 0, out, sizeof out, &written);
    check("explain no octets", status == LLRP_OK && written == 0 && holds("", 0));
    status = explain(REQUEST, sizeof REQUEST, out, sizeof out, &written);
    check("explain another message", status == LLRP_FAULTY && written == FAULT_LENGTH && holds(FAULT_EXPLAINED, FAULT_LENGTH));
    status = explain_all(REQUEST, sizeof REQUEST, out, ALL_LENGTH, &written);
    check("explain all", status == LLRP_OK && written == ALL_LENGTH && holds(REQUEST_EXPLAINED, ALL_LENGTH));
    status = explain_all(REQUEST, sizeof REQUEST, out, ALL_LENGTH - 1, &written);
    check("explain all, too little room", status == LLRP_ROOM && written == ALL_LENGTH && holds("", 0));
}

/* Whether two structs of a tag say the same. */
static int same_tag(const struct llrp_tag *a, const struct llrp_tag *b) {
    return a->has == b->has && a->first_seen == b->first_seen && a->antenna == b->antenna && a->count == b->count && a->rssi == b->rssi
        && a->text_length == b->text_length && memcmp(a->word, b->word, sizeof a->word) == 0 && memcmp(a->text, b->text, sizeof a->text) == 0;
}

static void check_reports(void) {
    const struct llrp_tag none = {0}, before = {9, 9, 9, 9, 9, 9, {9}, {9}};
    struct llrp_tag seen = {1600000000000000, 31, 2, 65534, -60, TEXT_LENGTH, {0}, {0}}, room[3] = {before, before, before};
    size_t written = 99;
    memcpy(seen.word, WORD, sizeof WORD);
    memcpy(seen.text, TEXT, TEXT_LENGTH);
    check("tags, too little room", tags(REPORT, sizeof REPORT, room, 1, &written) == LLRP_ROOM && written == 2 && same_tag(room, &before));
    check("tags of less than a frame", tags(REPORT, sizeof REPORT - 1, room, 3, &written) == LLRP_LENGTH && written == 0 && same_tag(room, &before));
    check("tags of more than a frame", tags(STREAM, FRAMES_LENGTH, room, 3, &written) == LLRP_LENGTH && written == 0 && same_tag(room, &before));
    const uint8_t faulty[] = {8, 0x3E, 0, 0, 0, 11, 0, 0, 0, 7, 0};
    check("tags of a fault", tags(faulty, sizeof faulty, room, 3, &written) == LLRP_FAULTY && written == 0 && same_tag(room, &before));
    check("tags of another message", tags(REQUEST, sizeof REQUEST, room, 3, &written) == LLRP_OK && written == 0 && same_tag(room, &before));
    check("tags", tags(REPORT, sizeof REPORT, room, 3, &written) == LLRP_OK && written == 2 && same_tag(room, &seen));
    check("a tag of another length", same_tag(room + 1, &none));
    check("the room after the tags", same_tag(room + 2, &before));
    check("the bits of a tag", LLRP_TAG_WORD + LLRP_TAG_ANTENNA + LLRP_TAG_RSSI + LLRP_TAG_FIRST_SEEN + LLRP_TAG_COUNT == 31);
}

static void check_octets_of_json(void) {
    size_t written = 99, length = 99;
    uint64_t line = 99;
    uint32_t status = encode_json(octets_of(LINES), sizeof LINES - 1, out, FRAMES_LENGTH, &written, &line, path, sizeof path, &length);
    check("octets of JSON", status == LLRP_OK && written == FRAMES_LENGTH && line == 0 && length == 0 && holds(STREAM, FRAMES_LENGTH));
    status = encode_json(octets_of(LINES), sizeof LINES - 1, out, FRAMES_LENGTH - 1, &written, &line, path, sizeof path, &length);
    check("octets of JSON, too little room", status == LLRP_ROOM && written == FRAMES_LENGTH && line == 0 && length == 0 && holds("", 0));
    status = encode_json(octets_of(WRONG_LINES), sizeof WRONG_LINES - 1, out, sizeof out, &written, &line, path, 3, &length);
    check("a path, too little room", status == LLRP_JSON_UNKNOWN && line == 2 && length == 4 && memcmp(path, "........", 8) == 0 && holds("", 0));
    status = encode_json(octets_of(WRONG_LINES), sizeof WRONG_LINES - 1, out, sizeof out, &written, &line, path, 4, &length);
    check("a member that is refused", status == LLRP_JSON_UNKNOWN && written == 0 && line == 2 && length == 4 && memcmp(path, "Seen....", 8) == 0 && holds("", 0));
    status = encode_json(octets_of(REQUEST_LINE), sizeof REQUEST_LINE - 1, out, sizeof out, &written, &line, path, sizeof path, &length);
    check("JSON of another message", status == LLRP_NAME && line == 1 && length == 7 && memcmp(path, "message.", 8) == 0 && holds("", 0));
    status = encode_json_all(octets_of(REQUEST_LINE), sizeof REQUEST_LINE - 2, out, sizeof out, &written, &line, path, sizeof path, &length);
    check("octets of JSON of all", status == LLRP_OK && written == sizeof REQUEST && line == 0 && length == 0 && holds(REQUEST, sizeof REQUEST));
}

int main(void) {
    clear();
    check_tags();
    check_all_schemes();
    check_keys();
    check_keys_in_all();
    check_streams();
    check_all();
    check_json();
    check_next();
    check_explain();
    check_reports();
    check_octets_of_json();
    printf("%d passed, %d failed\n", passed, failed);
    return failed > 0;
}
