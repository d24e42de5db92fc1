/*
 * Asks every question from C, for each of its answers, into a buffer of every length up to past the layout's size, and holds the number
 * and every byte in and around the buffer to what they have to be. Then NULL for each pointer whose length is 0, and file numbers of 64
 * bits. Prints what differs; exits with 0 if nothing does. Compiles as C and as C++.
 */
#include "skaveldro.h"

#include <stdio.h>
#include <string.h>

#define HEADER "{\"version\":\"2.3\",\"last_updated\":0,\"ttl\":0,\"data\":"

#define PLAN \
    "{\"plan_id\":\"p\",\"name\":\"n\",\"currency\":\"EUR\",\"price\":1,\"is_taxable\":false,\"description\":\"d\"," \
    "\"per_min_pricing\":[{\"start\":10,\"rate\":-0.5,\"interval\":0,\"end\":20}]}"

#define REGION "{\"region_id\":\"r\",\"name\":\"n\"}"

/* A text as a file: pointer and length. */
#define FILE_OF(text) ((const uint8_t *)(text)), (sizeof(text) - 1)

/* No bytes, not by NULL. */
#define EMPTY FILE_OF("")

static const char BIKES[] = HEADER
    "{\"bikes\":[{\"bike_id\":\"a\",\"is_reserved\":false,\"is_disabled\":false},"
    "{\"bike_id\":\"b\",\"is_reserved\":false,\"is_disabled\":false},{}]}}";
static const char NO_TYPES[] = HEADER "{\"vehicle_types\":[]}}";
static const char NO_STATIONS[] = HEADER "{\"stations\":[]}}";
static const char NO_BIKES[] = HEADER "{\"bikes\":[]}}";
static const char PLANS[] = HEADER "{\"plans\":[" PLAN "]}}";
static const char DISCOUNTS[] = HEADER
    "{\"plans\":[{\"plan_id\":\"p\",\"name\":\"n\",\"currency\":\"EUR\",\"price\":1,\"is_taxable\":false,\"description\":\"d\","
    "\"per_min_pricing\":[{\"start\":10,\"rate\":-3,\"interval\":0,\"end\":20}]}]}}";
static const char ZONES[] = HEADER
    "{\"geofencing_zones\":{\"type\":\"FeatureCollection\",\"features\":[{\"type\":\"Feature\",\"geometry\":{\"type\":\"MultiPolygon\","
    "\"coordinates\":[[[[0,0],[0,2],[2,2],[2,0],[0,0]],[[0.5,0.5],[1,0.5],[1,1],[0.5,1],[0.5,0.5]]]]},"
    "\"properties\":{\"rules\":[{\"vehicle_type_id\":[\"t\"],"
    "\"ride_allowed\":true,\"ride_through_allowed\":false,\"maximum_speed_kph\":20,\"station_parking\":true}]}}]}}}";
static const char SYSTEM[] = HEADER
    "{\"system_id\":\"s\",\"language\":\"en\",\"name\":\"n\",\"timezone\":\"Etc/UTC\",\"start_date\":\"2000-02-29\"}}";
static const char NO_SUCH_DAY[] = HEADER
    "{\"system_id\":\"s\",\"language\":\"en\",\"name\":\"n\",\"timezone\":\"Etc/UTC\",\"start_date\":\"1900-02-29\"}}";
static const char REGIONS[] = HEADER "{\"regions\":[" REGION "]}}";
static const uint8_t WORD[] = {0x14, 0x62, 0x80, 0x03, 0, 0, 0, 0};

static int failures = 0;

static void expect(const char *what, size_t length, long long found, long long wanted)
{
    if (found == wanted)
        return;
    printf("%s, into %zu bytes: %lld, not %lld\n", what, length, found, wanted);
    failures++;
}

/* A question: asks it with that buffer and returns the number. */
typedef uint8_t question(uint8_t *answer, size_t length);

static uint8_t verdict_accepted(uint8_t *answer, size_t length)
{
    return skaveldro_verdict(SKAVELDRO_ABSENT, SKAVELDRO_ABSENT, SKAVELDRO_ABSENT, FILE_OF(NO_BIKES), SKAVELDRO_ABSENT,
                             SKAVELDRO_ABSENT, FILE_OF(SYSTEM), SKAVELDRO_ABSENT, answer, length);
}

static uint8_t verdict_not_accepted(uint8_t *answer, size_t length)
{
    return skaveldro_verdict(SKAVELDRO_ABSENT, SKAVELDRO_ABSENT, SKAVELDRO_ABSENT, FILE_OF(BIKES), SKAVELDRO_ABSENT,
                             SKAVELDRO_ABSENT, SKAVELDRO_ABSENT, SKAVELDRO_ABSENT, answer, length);
}

/* The system's own file is always called for. */
static uint8_t verdict_without_system(uint8_t *answer, size_t length)
{
    return skaveldro_verdict(SKAVELDRO_ABSENT, SKAVELDRO_ABSENT, SKAVELDRO_ABSENT, FILE_OF(NO_BIKES), SKAVELDRO_ABSENT,
                             SKAVELDRO_ABSENT, SKAVELDRO_ABSENT, FILE_OF(REGIONS), answer, length);
}

static uint8_t word_read(uint8_t *answer, size_t length)
{
    return skaveldro_read_word(WORD, sizeof WORD, answer, length);
}

static uint8_t word_cut_off(uint8_t *answer, size_t length)
{
    return skaveldro_read_word(WORD, sizeof WORD - 1, answer, length);
}

static uint8_t word_of_no_bytes(uint8_t *answer, size_t length)
{
    return skaveldro_read_word(NULL, 0, answer, length);
}

static uint8_t quote_priced(uint8_t *answer, size_t length)
{
    return skaveldro_quote(FILE_OF(PLANS), FILE_OF("p"), 600, 0, answer, length);
}

static uint8_t quote_past_minutes(uint8_t *answer, size_t length)
{
    return skaveldro_quote(FILE_OF(PLANS), FILE_OF("p"), 1200, 0, answer, length);
}

/* A discount beyond the price gives no credit, and leaves the mark. */
static uint8_t quote_discounted(uint8_t *answer, size_t length)
{
    return skaveldro_quote(FILE_OF(DISCOUNTS), FILE_OF("p"), 1200, 0, answer, length);
}

/* Too long a ride comes ahead of a file that is not clean. */
static uint8_t quote_too_long(uint8_t *answer, size_t length)
{
    return skaveldro_quote(FILE_OF("{"), FILE_OF("p"), 2678401, 0, answer, length);
}

static uint8_t quote_not_clean(uint8_t *answer, size_t length)
{
    return skaveldro_quote(FILE_OF("{"), FILE_OF("p"), 0, 0, answer, length);
}

static uint8_t quote_of_no_plan(uint8_t *answer, size_t length)
{
    return skaveldro_quote(FILE_OF(PLANS), FILE_OF("q"), 0, 0, answer, length);
}

static uint8_t quote_of_no_id(uint8_t *answer, size_t length)
{
    return skaveldro_quote(FILE_OF(PLANS), NULL, 0, 0, 0, answer, length);
}

static uint8_t quote_of_no_file(uint8_t *answer, size_t length)
{
    return skaveldro_quote(NULL, 0, NULL, 0, 0, 0, answer, length);
}

static uint8_t zone_ruled(uint8_t *answer, size_t length)
{
    return skaveldro_zone_rule(FILE_OF(ZONES), 1000000, 2000000, FILE_OF("t"), 0, answer, length);
}

/* The edge of a hole belongs to the zone, its inside does not. */
static uint8_t zone_on_hole(uint8_t *answer, size_t length)
{
    return skaveldro_zone_rule(FILE_OF(ZONES), 1000000, 750000, FILE_OF("t"), 0, answer, length);
}

static uint8_t zone_in_hole(uint8_t *answer, size_t length)
{
    return skaveldro_zone_rule(FILE_OF(ZONES), 999999, 750000, FILE_OF("t"), 0, answer, length);
}

/* A point off the map comes ahead of a file that is not clean. */
static uint8_t zone_off_map(uint8_t *answer, size_t length)
{
    return skaveldro_zone_rule(FILE_OF("{"), -180000001, 0, FILE_OF("t"), 0, answer, length);
}

static uint8_t zone_not_clean(uint8_t *answer, size_t length)
{
    return skaveldro_zone_rule(FILE_OF("{"), 0, 0, FILE_OF("t"), 0, answer, length);
}

static uint8_t zone_of_no_rule(uint8_t *answer, size_t length)
{
    return skaveldro_zone_rule(FILE_OF(ZONES), -1, 0, FILE_OF("t"), 0, answer, length);
}

static uint8_t zone_of_no_type(uint8_t *answer, size_t length)
{
    return skaveldro_zone_rule(FILE_OF(ZONES), 1000000, 2000000, NULL, 0, 0, answer, length);
}

static uint8_t zone_of_no_file(uint8_t *answer, size_t length)
{
    return skaveldro_zone_rule(NULL, 0, 0, 0, NULL, 0, 0, answer, length);
}

static uint8_t record_shown(uint8_t *answer, size_t length)
{
    return skaveldro_show_record(5, 1, FILE_OF(PLANS), answer, length);
}

static uint8_t record_not_clean(uint8_t *answer, size_t length)
{
    return skaveldro_show_record(4, 1, FILE_OF(BIKES), answer, length);
}

static uint8_t record_past_the_last(uint8_t *answer, size_t length)
{
    return skaveldro_show_record(5, 2, FILE_OF(PLANS), answer, length);
}

static uint8_t record_of_no_file(uint8_t *answer, size_t length)
{
    return skaveldro_show_record(SKAVELDRO_FILES + 1, 1, FILE_OF("{"), answer, length);
}

static uint8_t record_of_regions(uint8_t *answer, size_t length)
{
    return skaveldro_show_record(8, 1, FILE_OF(REGIONS), answer, length);
}

/* The system's own file has no records. */
static uint8_t record_of_system(uint8_t *answer, size_t length)
{
    return skaveldro_show_record(7, 1, FILE_OF(SYSTEM), answer, length);
}

static uint8_t record_of_unclean_system(uint8_t *answer, size_t length)
{
    return skaveldro_show_record(7, 1, FILE_OF(NO_SUCH_DAY), answer, length);
}

static uint8_t record_of_absent_file(uint8_t *answer, size_t length)
{
    return skaveldro_show_record(5, 1, NULL, 0, answer, length);
}

/* A question, its layout's size, its answer and the values that this gives, so many: none for a refusal. */
struct asked {
    const char *what;
    question *ask;
    size_t size;
    uint8_t number;
    size_t count;
    int64_t values[12];
};

#define PLAN_FROM ((int64_t)sizeof(HEADER "{\"plans\":[") - 1)
#define PLAN_UPTO (PLAN_FROM + (int64_t)sizeof(PLAN) - 1)
#define REGION_FROM ((int64_t)sizeof(HEADER "{\"regions\":[") - 1)
#define REGION_UPTO (REGION_FROM + (int64_t)sizeof(REGION) - 1)

static const struct asked ASKED[] = {
    {"read word", word_read, SKAVELDRO_READ_WORD_BYTES, SKAVELDRO_ANSWERED, 6, {4, 6, 40, 3, 0, 0}},
    {"read word, cut off", word_cut_off, SKAVELDRO_READ_WORD_BYTES, SKAVELDRO_NO_WORD, 0, {0}},
    {"read word, no bytes", word_of_no_bytes, SKAVELDRO_READ_WORD_BYTES, SKAVELDRO_NO_WORD, 0, {0}},
    {"quote", quote_priced, SKAVELDRO_QUOTE_BYTES, SKAVELDRO_ANSWERED, 9, {0, 0, 0, 0, 0, 0, 5000, 0, 0}},
    {"quote past minutes", quote_past_minutes, SKAVELDRO_QUOTE_BYTES, SKAVELDRO_ANSWERED, 9, {0, 0, 0, 0, 0, 0, 5000, 1, 0}},
    {"quote, no credit", quote_discounted, SKAVELDRO_QUOTE_BYTES, SKAVELDRO_ANSWERED, 9, {0, 0, 0, 0, 0, 0, 0, 1, 0}},
    {"quote, too long", quote_too_long, SKAVELDRO_QUOTE_BYTES, SKAVELDRO_RIDE_TOO_LONG, 0, {0}},
    {"quote, not clean", quote_not_clean, SKAVELDRO_QUOTE_BYTES, SKAVELDRO_NOT_CLEAN, 9, {5, 2, 0, 0, 0, 1, 0, 0, 0}},
    {"quote, no plan", quote_of_no_plan, SKAVELDRO_QUOTE_BYTES, SKAVELDRO_NO_PLAN, 0, {0}},
    {"quote, no id", quote_of_no_id, SKAVELDRO_QUOTE_BYTES, SKAVELDRO_NO_PLAN, 0, {0}},
    {"quote, no file", quote_of_no_file, SKAVELDRO_QUOTE_BYTES, SKAVELDRO_NO_PLAN, 0, {0}},
    {"zone rule", zone_ruled, SKAVELDRO_ZONE_RULE_BYTES, SKAVELDRO_ANSWERED, 12, {0, 0, 0, 0, 0, 0, 1, 0, 1, 20, 1, 1}},
    {"zone rule, a hole's edge", zone_on_hole, SKAVELDRO_ZONE_RULE_BYTES, SKAVELDRO_ANSWERED, 12, {0, 0, 0, 0, 0, 0, 1, 0, 1, 20, 1, 1}},
    {"zone rule, in a hole", zone_in_hole, SKAVELDRO_ZONE_RULE_BYTES, SKAVELDRO_NO_RULE, 0, {0}},
    {"zone rule, off the map", zone_off_map, SKAVELDRO_ZONE_RULE_BYTES, SKAVELDRO_POINT_OFF_MAP, 0, {0}},
    {"zone rule, not clean", zone_not_clean, SKAVELDRO_ZONE_RULE_BYTES, SKAVELDRO_NOT_CLEAN, 12, {6, 2, 0, 0, 0, 1, 0, 0, 0, 0, 0, 0}},
    {"zone rule, none", zone_of_no_rule, SKAVELDRO_ZONE_RULE_BYTES, SKAVELDRO_NO_RULE, 0, {0}},
    {"zone rule, no type", zone_of_no_type, SKAVELDRO_ZONE_RULE_BYTES, SKAVELDRO_NO_RULE, 0, {0}},
    {"zone rule, no file", zone_of_no_file, SKAVELDRO_ZONE_RULE_BYTES, SKAVELDRO_NO_RULE, 0, {0}},
    {"show record", record_shown, SKAVELDRO_SHOW_RECORD_BYTES, SKAVELDRO_ANSWERED, 8, {0, 0, 0, 0, 0, 0, PLAN_FROM, PLAN_UPTO}},
    {"show record, not clean", record_not_clean, SKAVELDRO_SHOW_RECORD_BYTES, SKAVELDRO_NOT_CLEAN, 8, {4, 6, 40, 3, 0, 0, 0, 0}},
    {"show record, past the last", record_past_the_last, SKAVELDRO_SHOW_RECORD_BYTES, SKAVELDRO_NO_RECORD, 0, {0}},
    {"show record, no such file", record_of_no_file, SKAVELDRO_SHOW_RECORD_BYTES, SKAVELDRO_NO_RECORD, 0, {0}},
    {"show record, a region", record_of_regions, SKAVELDRO_SHOW_RECORD_BYTES, SKAVELDRO_ANSWERED, 8, {0, 0, 0, 0, 0, 0, REGION_FROM, REGION_UPTO}},
    {"show record, of the system", record_of_system, SKAVELDRO_SHOW_RECORD_BYTES, SKAVELDRO_NO_RECORD, 0, {0}},
    {"show record, no such day", record_of_unclean_system, SKAVELDRO_SHOW_RECORD_BYTES, SKAVELDRO_NOT_CLEAN, 8, {7, 9, 94, 0, 0, 0, 0, 0}},
    {"show record, absent file", record_of_absent_file, SKAVELDRO_SHOW_RECORD_BYTES, SKAVELDRO_NO_RECORD, 0, {0}},
};

/* A buffer of any length in the middle of bytes that no call may touch. */
enum { MARGIN = 32, LONGEST = SKAVELDRO_ZONE_RULE_BYTES + 16 };

/* What stands at a place before a call. Two fillings, of which one is never what is written there. */
static uint8_t filling(size_t place, uint8_t first)
{
    return (uint8_t)(first + 7 * place);
}

/* The number that is to be returned: there are that many bytes to write, and room for so many. */
static uint8_t told(uint8_t number, size_t size, size_t length)
{
    if (length < size)
        return SKAVELDRO_NO_ROOM;
    return number;
}

/* Asks into a buffer of one length, within the margins, and compares the number, the bytes written and all the others. */
static void ask_into(const char *what, question *ask, uint8_t number, const uint8_t *written, size_t size, size_t length, uint8_t first)
{
    uint8_t bytes[MARGIN + LONGEST + MARGIN];
    for (size_t place = 0; place < sizeof bytes; place++)
        bytes[place] = filling(place, first);
    size_t fits = size <= length ? size : 0;
    expect(what, length, ask(bytes + MARGIN, length), told(number, size, length));
    for (size_t place = 0; place < sizeof bytes; place++) {
        int is_written = MARGIN <= place && place - MARGIN < fits;
        expect(what, length, bytes[place], is_written ? written[place - MARGIN] : filling(place, first));
    }
}

/* Asks into buffers of every length from 0 to past the layout's size, and into none at all. */
static void ask_into_every(const char *what, question *ask, size_t layout, uint8_t number, const uint8_t *written, size_t size)
{
    for (size_t length = 0; length <= layout + 16; length++) {
        ask_into(what, ask, number, written, size, length, 0xAA);
        ask_into(what, ask, number, written, size, length, 0x55);
    }
    expect(what, 0, ask(NULL, 0), told(number, size, 0));
}

static void verdicts(void)
{
    static const uint8_t accepted[] = {0x10, 0, 0, 0, 0, 0, 0, 0};
    static const uint8_t without_system[] = {0x17, 0xE0, 0, 0, 0, 0, 0, 0};
    ask_into_every("verdict", verdict_accepted, SKAVELDRO_WORD_BYTES, SKAVELDRO_ACCEPTED, accepted, sizeof accepted);
    ask_into_every("verdict, a rule broken", verdict_not_accepted, SKAVELDRO_WORD_BYTES, SKAVELDRO_NOT_ACCEPTED, WORD, sizeof WORD);
    ask_into_every("verdict, no system", verdict_without_system, SKAVELDRO_WORD_BYTES, SKAVELDRO_NOT_ACCEPTED, without_system,
                   sizeof without_system);
}

static void answers(void)
{
    for (size_t index = 0; index < sizeof ASKED / sizeof *ASKED; index++) {
        const struct asked *asked = &ASKED[index];
        uint8_t written[SKAVELDRO_ZONE_RULE_BYTES] = {0};
        for (size_t byte = 0; byte < 8 * asked->count; byte++)
            written[byte] = (uint8_t)((uint64_t)asked->values[byte / 8] >> (8 * (byte % 8)));
        ask_into_every(asked->what, asked->ask, asked->size, asked->number, written, 8 * asked->count);
        for (size_t value = 0; value < asked->count; value++)
            expect(asked->what, asked->size, skaveldro_signed_value(written, value), asked->values[value]);
    }
}

/* Whatever is there, an absent file by NULL is an absent file by a pointer. */
static void absent_files(void)
{
    static const struct {
        const char *text;
        size_t length;
    } files[SKAVELDRO_FILES] = {
        {NO_TYPES, sizeof NO_TYPES - 1},
        {NO_STATIONS, sizeof NO_STATIONS - 1},
        {NO_STATIONS, sizeof NO_STATIONS - 1},
        {NO_BIKES, sizeof NO_BIKES - 1},
        {PLANS, sizeof PLANS - 1},
        {ZONES, sizeof ZONES - 1},
        {SYSTEM, sizeof SYSTEM - 1},
        {REGIONS, sizeof REGIONS - 1},
    };
    static const char empty[] = "";
    for (unsigned present = 0; present < 1u << SKAVELDRO_FILES; present++) {
        uint8_t words[2][SKAVELDRO_WORD_BYTES], numbers[2];
        for (int by_null = 0; by_null < 2; by_null++) {
            const uint8_t *bytes[SKAVELDRO_FILES];
            size_t lengths[SKAVELDRO_FILES];
            for (int file = 0; file < SKAVELDRO_FILES; file++) {
                int is_there = present >> file & 1;
                bytes[file] = (const uint8_t *)(is_there ? files[file].text : by_null ? NULL : empty);
                lengths[file] = is_there ? files[file].length : 0;
            }
            numbers[by_null] = skaveldro_verdict(bytes[0], lengths[0], bytes[1], lengths[1], bytes[2], lengths[2], bytes[3], lengths[3],
                                                 bytes[4], lengths[4], bytes[5], lengths[5], bytes[6], lengths[6], bytes[7], lengths[7],
                                                 words[by_null], SKAVELDRO_WORD_BYTES);
        }
        expect("verdict, absent by NULL", SKAVELDRO_WORD_BYTES, numbers[1], numbers[0]);
        expect("its word", SKAVELDRO_WORD_BYTES, memcmp(words[1], words[0], SKAVELDRO_WORD_BYTES), 0);
    }
    uint8_t answer[SKAVELDRO_ZONE_RULE_BYTES];
    expect("word of no bytes", 0, skaveldro_read_word(EMPTY, answer, 0), SKAVELDRO_NO_WORD);
    expect("quote of no bytes", 0, skaveldro_quote(EMPTY, EMPTY, 0, 0, answer, 0), SKAVELDRO_NO_PLAN);
    expect("zone rule of no bytes", 0, skaveldro_zone_rule(EMPTY, 0, 0, EMPTY, 0, answer, 0), SKAVELDRO_NO_RULE);
    expect("record of no bytes", 0, skaveldro_show_record(5, 1, EMPTY, answer, 0), SKAVELDRO_NO_RECORD);
}

/* A file or record is its whole number: none is taken for the one that its lowest bits name. */
static void numbers_of_64_bits(void)
{
    static const uint64_t wide[] = {0, 9, 256 + 5, 65536 + 5, (UINT64_C(1) << 32) + 5, UINT64_C(1) << 63, (UINT64_C(1) << 63) + 5, UINT64_MAX};
    static const uint64_t records[] = {0, 2, 256 + 1, 65536 + 1, (UINT64_C(1) << 32) + 1, UINT64_C(1) << 63, (UINT64_C(1) << 63) + 1, UINT64_MAX};
    uint8_t answer[SKAVELDRO_SHOW_RECORD_BYTES];
    for (size_t index = 0; index < sizeof wide / sizeof *wide; index++) {
        expect("show record, file of 64 bits", sizeof answer,
               skaveldro_show_record(wide[index], 1, FILE_OF(PLANS), answer, sizeof answer), SKAVELDRO_NO_RECORD);
        expect("show record, record of 64 bits", sizeof answer,
               skaveldro_show_record(5, records[index], FILE_OF(PLANS), answer, sizeof answer), SKAVELDRO_NO_RECORD);
    }
    expect("show record, file 257", sizeof answer, skaveldro_show_record(256 + 1, 1, EMPTY, answer, 0), SKAVELDRO_NO_RECORD);
    expect("show record, file 2^32 + 1", sizeof answer, skaveldro_show_record((UINT64_C(1) << 32) + 1, 1, FILE_OF("{"), answer, 0),
           SKAVELDRO_NO_RECORD);
}

int main(void)
{
    verdicts();
    answers();
    absent_files();
    numbers_of_64_bits();
    if (failures == 0)
        puts("C: every question answered as it has to be, into buffers of every length");
    return failures == 0 ? 0 : 1;
}
