/* Prints the period in which the library counts each quarter-hour of the four kinds of days, as 384 digits: winter weekdays, winter weekends, summer
 * weekdays, summer weekends. For each of them it opens an account and bills a month in which 1 Wh is delivered and received then. */
#include "kozempil.h"

#include <stdio.h>

enum { QUARTERS = 96, PERIODS = 4, JANUARY_2001 = 12, JULY_2001 = 18 };

/* 1 January 2001 is a Monday, and 1 July 2001 a Sunday. */
static const struct { uint32_t month, day; } days[] = { { JANUARY_2001, 1 }, { JANUARY_2001, 6 }, { JULY_2001, 2 }, { JULY_2001, 1 } };

static uint32_t delivered[KOZEMPIL_MOST_READINGS];
static uint32_t received[KOZEMPIL_MOST_READINGS];
static uint64_t account[KOZEMPIL_ACCOUNT_LENGTH];
static uint64_t answer[KOZEMPIL_ANSWER_LENGTH];

/* Answers a call on the account; whether it is accepted. */
static int accepted(const uint64_t *call, size_t readings)
{
    uint64_t after[KOZEMPIL_ACCOUNT_LENGTH];

    if (!kozempil_call(account, KOZEMPIL_ACCOUNT_LENGTH, call, KOZEMPIL_CALL_LENGTH, delivered, readings, received, readings,
                       answer, KOZEMPIL_ANSWER_LENGTH, after, KOZEMPIL_ACCOUNT_LENGTH))
        return 0;
    for (size_t i = 0; i < KOZEMPIL_ACCOUNT_LENGTH; i++)
        account[i] = after[i];
    return answer[KOZEMPIL_ANSWER_NUMBER] == KOZEMPIL_ACCEPTED;
}

/* The one period that has the 1 Wh of each register, or '?'. */
static char period_of(uint32_t month)
{
    const uint64_t opening[KOZEMPIL_CALL_LENGTH] = {
        [KOZEMPIL_CALL_KIND] = KOZEMPIL_KIND_OPENING,
        [KOZEMPIL_CALL_NAMEPLATE_COUNT] = 1,
        [KOZEMPIL_CALL_NAMEPLATE] = 1,
        [KOZEMPIL_CALL_DEMAND_LIMIT] = 1,
        [KOZEMPIL_CALL_FIRST_MONTH] = month,
    };
    const uint64_t billing[KOZEMPIL_CALL_LENGTH] = { [KOZEMPIL_CALL_KIND] = KOZEMPIL_KIND_BILLING, [KOZEMPIL_CALL_MONTH] = month };
    char found = '?';

    for (size_t i = 0; i < KOZEMPIL_ACCOUNT_LENGTH; i++)
        account[i] = 0;
    if (!accepted(opening, 0) || !accepted(billing, kozempil_register_length(month)))
        return '?';
    for (int period = 0; period < PERIODS; period++) {
        const uint64_t counted = answer[KOZEMPIL_ANSWER_DELIVERED + period];
        if (counted != answer[KOZEMPIL_ANSWER_EXPORTED + period] || counted > 1 || (counted == 1 && found != '?'))
            return '?';
        if (counted == 1)
            found = (char)('0' + period);
    }
    return found;
}

int main(void)
{
    for (size_t kind = 0; kind < sizeof days / sizeof *days; kind++)
        for (uint32_t quarter = 0; quarter < QUARTERS; quarter++) {
            const uint32_t place = (days[kind].day - 1) * QUARTERS + quarter;
            delivered[place] = received[place] = 1;
            putchar(period_of(days[kind].month));
            delivered[place] = received[place] = 0;
        }
    putchar('\n');
    return 0;
}
