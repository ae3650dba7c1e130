/*
 * The dates of document 02, K2. A date is turned into the number of its day, counted from the beginning of the
 * calendar, and back: days are added to that number, and not stepped through.
 */
#include "reference.h"

#include "numbers.h"
#include "shared.h"

#include <stdbool.h>

/* The days before a month, from 1 on, in a year without a leap day; 13 is the year's end. */
static const unsigned common_days_before[14] = {0, 0, 31, 59, 90, 120, 151, 181, 212, 243, 273, 304, 334, 365};

static bool leap(unsigned year)
{
    return year % 4 == 0 && (year % 100 != 0 || year % 400 == 0);
}

static unsigned days_before_month(unsigned year, unsigned month)
{
    return common_days_before[month] + (leap(year) && month > 2);
}

/* A leap day for every fourth year, but only for every fourth of those that end a century. */
static unsigned days_before_year(unsigned year)
{
    unsigned past = year - 1;
    return 365 * past + past / 4 - past / 100 + past / 400;
}

/* The year, the month and the day that a number says, whatever they are. */
struct date {
    unsigned year, month, day;
};

static struct date date_of(uint32_t number)
{
    struct date date = {number / 10000, number / 100 % 100, number % 100};
    return date;
}

static uint32_t number_of(struct date date)
{
    return (uint32_t)(date.year * 10000 + date.month * 100 + date.day);
}

bool real_date(uint32_t number)
{
    struct date date = date_of(number);
    if (date.year < FIRST_YEAR || date.year > LAST_YEAR || date.month < 1 || date.month > 12)
        return false;
    unsigned days = days_before_month(date.year, date.month + 1) - days_before_month(date.year, date.month);
    return date.day >= 1 && date.day <= days;
}

/* The number of a real date's day. */
static unsigned day_number(struct date date)
{
    return days_before_year(date.year) + days_before_month(date.year, date.month) + date.day;
}

/* The date whose day has this number; it is in this year or later. */
static struct date date_of_day(unsigned number, unsigned year)
{
    while (days_before_year(year + 1) < number)
        year++;
    unsigned day_of_year = number - days_before_year(year), month = 1;
    while (days_before_month(year, month + 1) < day_of_year)
        month++;
    struct date date = {year, month, day_of_year - days_before_month(year, month)};
    return date;
}

uint32_t reference_add_days(uint32_t date, uint32_t count)
{
    if (!real_date(date) || count > DAYS_ADDED_MOST)
        return refused(86);
    struct date from = date_of(date), sum = date_of_day(day_number(from) + count, from.year);
    return sum.year > LAST_YEAR ? refused(86) : number_of(sum);
}
