/*
 * Kumolendi: shop opening hours from packed records. Link with libkumolendi.a (x86-64).
 *
 * A slice is a pointer and its length in elements. The pointer of an empty slice is never
 * followed: NULL with length 0 is fine. `out` must not overlap an input.
 *
 * No function has a condition on the bytes it is given. A refusal writes nothing to `out`;
 * a success writes its words from the front and leaves the rest as it was.
 *
 * An answer of type uint64_t holds the refusal's number in its upper half, 0 for none, and in
 * its lower half the refusal's place or, where nothing is refused, the function's value:
 * see KUMOLENDI_REFUSAL and KUMOLENDI_VALUE.
 *
 * A word of a listing or of a schedule: start minute 11 bits, end minute 11 bits, kind 2 bits
 * (0 open, 1 closed, 2 unknown), comment 8 bits, from the highest bit down.
 *
 * Nothing checks this file against the library's source.
 */
#ifndef KUMOLENDI_H
#define KUMOLENDI_H

#include <stddef.h>
#include <stdint.h>

#ifdef __cplusplus
extern "C" {
#endif

/* The refusal's number in an answer; 0: nothing was refused. */
#define KUMOLENDI_REFUSAL(answer) ((uint32_t)((answer) >> 32))
/* The value of an answer, or the refusal's place. */
#define KUMOLENDI_VALUE(answer) ((uint32_t)(answer))

/* The fields of a listing or schedule word. */
#define KUMOLENDI_START(word) ((uint32_t)(word) >> 21)
#define KUMOLENDI_END(word) ((uint32_t)(word) >> 10 & 2047u)
#define KUMOLENDI_KIND(word) ((uint32_t)(word) >> 8 & 3u)
#define KUMOLENDI_COMMENT(word) ((uint32_t)(word) & 255u)

/* An event time that is not known. */
#define KUMOLENDI_NO_EVENT 65535u
/* No listing of a day is longer, no schedule has more ranges. */
#define KUMOLENDI_MOST_ENTRIES 129u
#define KUMOLENDI_MOST_RANGES 64u

/* The refusals, and what their place counts. */
enum kumolendi_refusal {
    KUMOLENDI_CUT = 1,           /* a field runs past the rule image: its first bit */
    KUMOLENDI_NO_MEANING = 2,    /* a code without meaning: its first bit; 0 for the kind of a build */
    KUMOLENDI_OUT_OF_RANGE = 3,  /* a number or count outside its range: its first bit; 0 for a build */
    KUMOLENDI_NOT_FILL = 4,      /* fill that is not zero, or bytes after: that bit */
    KUMOLENDI_BAD_HOLIDAYS = 5,  /* an unsound holiday image, or in the wrong slot: the lowest slot; 0 for a lone image */
    KUMOLENDI_BAD_EVENT = 6,     /* an event neither 0 to 1439 nor 65535: the lowest event */
    KUMOLENDI_BAD_DATE = 7,      /* no such date or month, a year outside 1 to 12000, a minute over 1439, days over 3660: 0 */
    KUMOLENDI_TOO_MANY = 8,      /* an addition of more than 64 ranges: the rule from 0; 0 for a lone addition */
    KUMOLENDI_SHORT_OUTPUT = 9,  /* out is too short: the words needed */
    KUMOLENDI_BAD_SCHEDULE = 10  /* an offered schedule is not sound: 0 the first, 1 the second */
};

/*
 * Lists a day: entries that cover 0 to 1440 in order, neighbours differing in kind or comment.
 * Events are minutes 0 to 1439 or 65535; each holiday image may be empty.
 * Value: the entries written. Refusals: 1 to 7, 8, 9, asked in this order: rules, holidays, events, date, 8, 9.
 */
uint64_t kumolendi_list_day(const uint8_t *rules, size_t rules_len,
                            uint16_t dawn, uint16_t sunrise, uint16_t sunset, uint16_t dusk,
                            const uint8_t *public_days, size_t public_len,
                            const uint8_t *public_unknown, size_t public_unknown_len,
                            const uint8_t *school, size_t school_len,
                            const uint8_t *school_unknown, size_t school_unknown_len,
                            uint32_t year, uint32_t month, uint32_t day,
                            uint32_t *out, size_t out_len);

/* Reads a rule image. Value: the number of its rules. Refusals: 1 to 4. */
uint64_t kumolendi_check_rules(const uint8_t *rules, size_t rules_len);

/* Reads a lone holiday image, of any slot. Value: 0. Refusal: 5. */
uint64_t kumolendi_check_holidays(const uint8_t *image, size_t image_len);

/* Counts the holidays of a month. Value: the count, 0 where the image has nothing. Refusals: 5, 7. */
uint64_t kumolendi_holidays_in_month(const uint8_t *image, size_t image_len, uint32_t year, uint32_t month);

/*
 * Finds the first holiday after a date, the date itself left out.
 * Value: year * 512 + month * 32 + day, or 0 for none. Refusals: 5, 7.
 */
uint64_t kumolendi_first_holiday_after(const uint8_t *image, size_t image_len,
                                       uint32_t year, uint32_t month, uint32_t day);

/* The answer of kumolendi_next_change. */
typedef struct KumolendiChange {
    uint32_t refusal;  /* 0: none */
    uint32_t place;    /* of the refusal; for 8 the rule from 0 */
    uint32_t year;     /* the change's date, year 0: no change; for refusal 8 the refused day */
    uint32_t month;
    uint32_t day;
    uint32_t minute;   /* of the change, 0 to 1439 */
    uint32_t examined; /* the days looked at, the first included */
} KumolendiChange;

/*
 * Finds the first minute after the given one whose kind or comment is another, within `days` days
 * (0 means 366), the first day included. Inputs as for kumolendi_list_day.
 * Refusals: 1 to 7, and 8 where an examined day is refused; all fields that say nothing are 0.
 */
KumolendiChange kumolendi_next_change(const uint8_t *rules, size_t rules_len,
                                      uint16_t dawn, uint16_t sunrise, uint16_t sunset, uint16_t dusk,
                                      const uint8_t *public_days, size_t public_len,
                                      const uint8_t *public_unknown, size_t public_unknown_len,
                                      const uint8_t *school, size_t school_len,
                                      const uint8_t *school_unknown, size_t school_unknown_len,
                                      uint32_t year, uint32_t month, uint32_t day,
                                      uint32_t minute, uint32_t days);

/*
 * Builds a schedule of one kind and comment. Each given word is a start in its upper half and an end
 * in its lower; those with start >= end are skipped, overlapping and touching ones join.
 * Value: the ranges written. Refusals: 2, 3, 9.
 */
uint64_t kumolendi_build(const uint32_t *given, size_t given_len, uint8_t kind, uint8_t comment,
                         uint32_t *out, size_t out_len);

/* Lays schedule b over schedule a. Value: the ranges written. Refusals: 10 (place 0 for a, 1 for b), 8, 9. */
uint64_t kumolendi_addition(const uint32_t *a, size_t a_len, const uint32_t *b, size_t b_len,
                            uint32_t *out, size_t out_len);

/* Lists a schedule as a whole day. Value: the entries written. Refusals: 10 (place 0), 9. */
uint64_t kumolendi_listing(const uint32_t *words, size_t words_len, uint32_t *out, size_t out_len);

#ifdef __cplusplus
}
#endif

#endif
