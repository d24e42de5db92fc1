/*
 * Skaveldro: judges bike-share feeds of GBFS 2.3, prices rides and finds zone rules.
 *
 * A feed set is eight files, by number: 1 vehicle_types, 2 station_information, 3 station_status, 4 free_bike_status,
 * 5 system_pricing_plans, 6 geofencing_zones, 7 system_information, 8 system_regions. A file is its bytes, not NUL-terminated; one of
 * length 0 is absent.
 *
 * Each function takes any bytes and any numbers, returns, and keeps no state: calls on several threads need no lock. None allocates,
 * prints or calls back. What each answers is proved for every input; see docs/GUIDE.md.
 *
 * What the caller sees to:
 * - Each pointer is good for the length that comes with it. With the length 0 it may be NULL, be it that of a file, of an id or of a
 *   buffer: SKAVELDRO_ABSENT stands for NULL and 0.
 * - No length is over PTRDIFF_MAX.
 * - The buffer that is written lies apart from all bytes that are read, and nobody else reads or writes it during the call.
 * - Nobody writes the bytes that are read during the call. Bytes of a mapped file are copied first unless nobody can change the file.
 * - The thread has SKAVELDRO_STACK bytes of stack left.
 *
 * Answers: the number returned says which answer it is. Its values are in the buffer as unsigned numbers of 8 bytes each, the least
 * significant byte first, so that `skaveldro_value(answer, i)` is the value at index i.
 * - SKAVELDRO_ANSWERED and SKAVELDRO_NOT_CLEAN write all the values of their function, 0 where they do not give one, and no byte past
 *   them.
 * - Every other number but the verdict's two is a refusal: it writes nothing and needs no room, so that it is answered into a buffer of
 *   any length.
 * - SKAVELDRO_NO_ROOM is answered where there are values to write and the buffer has no room for them; nothing is written.
 */
#ifndef SKAVELDRO_H
#define SKAVELDRO_H

#include <stddef.h>
#include <stdint.h>

#ifdef __cplusplus
extern "C" {
#endif

/* Files of a set. */
#define SKAVELDRO_FILES 8

/* The most bytes of a file. A longer one may be given, and is refused. */
#define SKAVELDRO_MOST_BYTES 1048575

/* Stack that a call may need, with room to spare: docs/PERFORMANCE.md tells what was seen. */
#define SKAVELDRO_STACK (512 * 1024)

/* An absent file, or an empty id: two arguments, pointer and length. */
#define SKAVELDRO_ABSENT NULL, 0

/* Bytes of the buffers: the room that an answer with values needs. */
#define SKAVELDRO_WORD_BYTES 8
#define SKAVELDRO_READ_WORD_BYTES (6 * 8)
#define SKAVELDRO_QUOTE_BYTES (9 * 8)
#define SKAVELDRO_ZONE_RULE_BYTES (12 * 8)
#define SKAVELDRO_SHOW_RECORD_BYTES (8 * 8)

/* Numbers that are returned. */
enum {
    SKAVELDRO_ACCEPTED = 0,      /* verdict: the set keeps every rule; the word is written */
    SKAVELDRO_NOT_ACCEPTED = 1,  /* verdict: it breaks one; the word, which names the first, is written */
    SKAVELDRO_ANSWERED = 0,      /* any other question: the values are written */
    SKAVELDRO_NO_ROOM = 2,       /* any question: there is a word or values to write and no room for them; nothing is written */
    SKAVELDRO_NO_WORD = 3,       /* read word: the bytes are no word; nothing is written */
    SKAVELDRO_RIDE_TOO_LONG = 4, /* quote: over 2,678,400 seconds or 1,000,000 metres; nothing is written */
    SKAVELDRO_NOT_CLEAN = 5,     /* quote, zone rule, show record: the file breaks a rule; its parts are written, 0 for all further values */
    SKAVELDRO_NO_PLAN = 6,       /* quote: no plan has the id; nothing is written */
    SKAVELDRO_POINT_OFF_MAP = 8, /* zone rule: past 180 degrees of longitude or 90 of latitude; nothing is written */
    SKAVELDRO_NO_RULE = 9,       /* zone rule: none applies; nothing is written */
    SKAVELDRO_NO_RECORD = 10     /* show record: there is no such file or record; nothing is written */
};

/* Indices of the values that every answer but the verdict's begins with: the parts of a verdict word. All are 0 for an accepted set. */
enum {
    SKAVELDRO_FILE = 0,   /* the file, 1 to 8 */
    SKAVELDRO_KIND = 1,   /* the kind of rule, 1 to 15 */
    SKAVELDRO_FIELD = 2,  /* the field of the table; 0 is the file itself, or its top value */
    SKAVELDRO_RECORD = 3, /* the record from 1; 0 is the header */
    SKAVELDRO_SUB = 4,    /* the item, rule or position in the record, from 1; 0 where none is blamed */
    SKAVELDRO_OFFSET = 5  /* of kinds 1 to 4, the place in the file's bytes */
};

/* Further values of a quote. */
enum {
    SKAVELDRO_AMOUNT = 6,         /* ten-thousandths of the plan's currency, never negative; read it with skaveldro_signed_value */
    SKAVELDRO_PAST_MINUTES = 7,   /* 1 where the ride has come to the end of all per-minute segments, else 0 */
    SKAVELDRO_PAST_KILOMETRES = 8 /* the same of the per-kilometre segments */
};

/* Further values of a zone rule: 1 is yes, 0 is no. */
enum {
    SKAVELDRO_RIDE = 6,           /* ride_allowed */
    SKAVELDRO_THROUGH = 7,        /* ride_through_allowed */
    SKAVELDRO_SPEED_GIVEN = 8,    /* whether a rule gives maximum_speed_kph */
    SKAVELDRO_SPEED = 9,          /* maximum_speed_kph */
    SKAVELDRO_PARKING_GIVEN = 10, /* whether a rule gives station_parking */
    SKAVELDRO_PARKING = 11        /* station_parking */
};

/* Further values of a record shown. */
enum {
    SKAVELDRO_FROM = 6, /* offset of the record's opening bracket */
    SKAVELDRO_UPTO = 7  /* offset just past its closing bracket */
};

/*
 * The verdict on a feed set. Returns SKAVELDRO_NO_ROOM if the buffer has fewer than 8 bytes; SKAVELDRO_ACCEPTED if the set keeps every
 * rule; SKAVELDRO_NOT_ACCEPTED otherwise. With the last two the first 8 bytes of the buffer are the verdict word, the most significant
 * byte first: it names the first broken rule, and can be kept and read back with skaveldro_read_word. The rest of the buffer stays.
 */
uint8_t skaveldro_verdict(const uint8_t *types, size_t types_length,
                          const uint8_t *stations, size_t stations_length,
                          const uint8_t *statuses, size_t statuses_length,
                          const uint8_t *bikes, size_t bikes_length,
                          const uint8_t *plans, size_t plans_length,
                          const uint8_t *zones, size_t zones_length,
                          const uint8_t *system, size_t system_length,
                          const uint8_t *regions, size_t regions_length,
                          uint8_t *buffer, size_t buffer_length);

/*
 * Reads any bytes as a verdict word. Returns, in this order of checking: SKAVELDRO_NO_WORD if they are none; SKAVELDRO_NO_ROOM under 48
 * bytes; SKAVELDRO_ANSWERED. Six values: the parts.
 */
uint8_t skaveldro_read_word(const uint8_t *word, size_t word_length,
                            uint8_t *answer, size_t answer_length);

/*
 * What a ride costs under the plan of that id, by the bytes of file 5. Returns, in this order of checking: SKAVELDRO_RIDE_TOO_LONG over
 * 2,678,400 seconds or 1,000,000 metres; SKAVELDRO_NOT_CLEAN if the file is not sound by itself, with the parts of its word;
 * SKAVELDRO_NO_PLAN; SKAVELDRO_ANSWERED with amount and marks. In place of the two that write values, SKAVELDRO_NO_ROOM under 72 bytes.
 * Nine values: the parts, amount, past minutes, past kilometres. Where discounts outweigh the price and the charges the amount is 0: a
 * ride is never credited. The largest amount that the ceilings allow is 7,302,730,000,000,000.
 */
uint8_t skaveldro_quote(const uint8_t *plans, size_t plans_length,
                        const uint8_t *id, size_t id_length,
                        uint64_t seconds, uint64_t metres,
                        uint8_t *answer, size_t answer_length);

/*
 * What the rules at a point, in millionths of a degree, longitude first, give together for a vehicle type at a moment, in seconds since
 * 1970, by the bytes of file 6: each value comes from the first rule, in file order, that applies and gives it. Returns, in this order of
 * checking: SKAVELDRO_POINT_OFF_MAP past 180 or 90 degrees; SKAVELDRO_NOT_CLEAN if the file is not sound by itself, with the parts of its
 * word; SKAVELDRO_NO_RULE; SKAVELDRO_ANSWERED with the values. In place of the two that write values, SKAVELDRO_NO_ROOM under 96 bytes.
 * Twelve values: the parts, ride, through, whether a speed is given, the speed, whether parking is given, parking.
 *
 * A zone is where any of its polygons is. The edges of all rings of a polygon are in it; what a further ring encloses is not, whichever
 * way that ring winds; for the rest the first ring decides: clockwise it holds its inside, counterclockwise its outside.
 */
uint8_t skaveldro_zone_rule(const uint8_t *zones, size_t zones_length,
                            int64_t lon, int64_t lat,
                            const uint8_t *type_id, size_t type_id_length,
                            uint64_t moment,
                            uint8_t *answer, size_t answer_length);

/*
 * Where the record of that number, from 1, stands in the bytes of that file. Returns, in this order of checking: SKAVELDRO_NO_RECORD if
 * the file is not 1 to 8; SKAVELDRO_NOT_CLEAN if it is not sound by itself, with the parts of its word; SKAVELDRO_NO_RECORD if it has
 * no such record, as file 7 never has; SKAVELDRO_ANSWERED with the place. In place of the two that write values, SKAVELDRO_NO_ROOM
 * under 64 bytes. Eight values: the parts, from, upto.
 */
uint8_t skaveldro_show_record(uint64_t file, uint64_t record,
                              const uint8_t *bytes, size_t bytes_length,
                              uint8_t *answer, size_t answer_length);

/* The value at an index of an answer. */
static inline uint64_t skaveldro_value(const uint8_t *answer, size_t index)
{
    uint64_t value = 0;
    for (size_t byte = 8; byte-- > 0;)
        value = value << 8 | answer[8 * index + byte];
    return value;
}

/* The value at an index as a signed number, which is how an amount is meant. */
static inline int64_t skaveldro_signed_value(const uint8_t *answer, size_t index)
{
    uint64_t value = skaveldro_value(answer, index);
    return value <= INT64_MAX ? (int64_t)value : -(int64_t)(UINT64_MAX - value) - 1;
}

#ifdef __cplusplus
}
#endif

#endif
