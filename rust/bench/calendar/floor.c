/* Day number and date by Howard Hinnant's method, years counted from March: what a calendar can cost at least. Years from 1. */
#include <stdint.h>

/* 1 March of the year 0 is day 61. */
uint32_t floor_day_number(uint32_t year, uint32_t month, uint32_t day)
{
    uint32_t y = year - (month <= 2);
    uint32_t cycle = y / 400;
    uint32_t in_cycle = y % 400;
    uint32_t from_march = month > 2 ? month - 3 : month + 9;
    uint32_t in_year = (153 * from_march + 2) / 5 + day - 1;
    return cycle * 146097 + in_cycle * 365 + in_cycle / 4 - in_cycle / 100 + in_year + 61;
}

/* Packed as the measured date is: year * 512 + month * 32 + day. */
uint32_t floor_date_of(uint32_t n)
{
    uint32_t z = n - 61;
    uint32_t cycle = z / 146097;
    uint32_t in_cycle = z % 146097;
    uint32_t y = (in_cycle - in_cycle / 1460 + in_cycle / 36524 - in_cycle / 146096) / 365;
    uint32_t in_year = in_cycle - (365 * y + y / 4 - y / 100);
    uint32_t from_march = (5 * in_year + 2) / 153;
    uint32_t day = in_year - (153 * from_march + 2) / 5 + 1;
    uint32_t month = from_march < 10 ? from_march + 3 : from_march - 9;
    uint32_t year = y + cycle * 400 + (month <= 2);
    return year % 65536 * 512 + month % 16 * 32 + day % 32;
}
