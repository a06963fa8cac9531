/* Kozempil: bills of net metered accounts under the banked and the bridge rider.
 *
 * Link with libkozempil.a, which is built for x86-64. Each function reads and writes the buffers that it is lent and keeps nothing between
 * calls, so calls may run in several threads at once, as long as no buffer that one of them writes is lent to another at the same time.
 * Every input has a defined meaning: no call fails, hangs or reads past a buffer.
 *
 * Buffers. Each is a pointer and its length in elements (not bytes). NULL is fine where the length is 0. A pointer is aligned as its type
 * asks (8 bytes for uint64_t, 4 for uint32_t). A buffer that is written may overlap no other buffer of the call; those that are only read
 * may overlap each other, and are unaltered. What doesn't fit a written buffer is left out, and the rest of a longer one stays as it was.
 *
 * Units. Energies are in Wh and powers in W. Prices are in hundred-thousandths of a dollar per kWh or per kW; basic, minimum and all other
 * money are in cents. Months count from 0, January 2000. "By period" are four numbers: critical, on-peak, off-peak, discount.
 */
#ifndef KOZEMPIL_H
#define KOZEMPIL_H

#include <stddef.h>
#include <stdint.h>

#ifdef __cplusplus
extern "C" {
#endif

/* The version of the layout of calls, answers and accounts. It rises when a place, a code or a number of a refusal is added or changed, so compare
 * it with what the library that you link says: KOZEMPIL_LAYOUT == kozempil_layout(). */
#define KOZEMPIL_LAYOUT 3
uint32_t kozempil_layout(void);

/* Numbers of a call, of an answer and of an account. */
#define KOZEMPIL_CALL_LENGTH 26
#define KOZEMPIL_ANSWER_LENGTH 60
#define KOZEMPIL_ACCOUNT_LENGTH 31

/* Limits: the last month, December 2099; the largest price (of a kWh or a kW) and the largest basic or minimum; the most nameplates, and the
 * largest total of those of a home and of a business; the largest reading; the most critical days of a month; the most readings of a month; and
 * what an account holds at most, in Wh by period and in cents. */
#define KOZEMPIL_LAST_MONTH 1199
#define KOZEMPIL_PRICE_LIMIT 1000000
#define KOZEMPIL_AMOUNT_LIMIT 1000000
#define KOZEMPIL_MOST_NAMEPLATES 8
#define KOZEMPIL_HOME_LIMIT 20000
#define KOZEMPIL_BUSINESS_LIMIT 1000000
#define KOZEMPIL_READING_LIMIT 1000000
#define KOZEMPIL_MOST_CRITICAL_DAYS 10
#define KOZEMPIL_MOST_READINGS 2976
#define KOZEMPIL_CARRIED_LIMIT UINT64_C(4000000000000)
#define KOZEMPIL_STANDING_LIMIT UINT64_C(4000000000000)

/* A lost reading: this value in the place of a reading of either register. It counts as the last reading before it in the same register of the
 * same billing that isn't lost, for sums and demand alike. A register is never written to, and a day view shows it as it is. */
#define KOZEMPIL_LOST 4294967295U

/* The number of an answer: 0, or why the call is refused. Where several apply, the first one is given in the order 1, 2, 3, 4, 12, 5, 6, 11, 7,
 * 8, 9, 10, 13. */
enum {
    KOZEMPIL_ACCEPTED = 0,
    KOZEMPIL_REFUSED_NOT_OPEN = 1,              /* repricing, billing or closing of a fresh account */
    KOZEMPIL_REFUSED_OPEN_ALREADY = 2,          /* opening of an open account */
    KOZEMPIL_REFUSED_CLOSED = 3,                /* the account is closed, or can't arise (below) */
    KOZEMPIL_REFUSED_PRICE_LIST = 4,            /* a price or amount above its limit, or an energy price above the one before */
    KOZEMPIL_REFUSED_CAPACITY = 5,              /* a nameplate of 0, or a total above the demand limit or the limit of its class */
    KOZEMPIL_REFUSED_NO_BRIDGE = 6,             /* bridge rider for a business */
    KOZEMPIL_REFUSED_MONTH = 7,                 /* first month above the last one, or billing of a month other than the next */
    KOZEMPIL_REFUSED_REGISTER_LENGTH = 8,       /* a register of another length than the month's */
    KOZEMPIL_REFUSED_CRITICAL_DAYS = 9,         /* critical days past the month's last, or too many */
    KOZEMPIL_REFUSED_READING = 10,              /* a reading above its limit, other than KOZEMPIL_LOST */
    KOZEMPIL_REFUSED_BOOK_FULL = 11,            /* billing when the last month has been billed */
    KOZEMPIL_REFUSED_NAMEPLATES = 12,           /* no nameplates, or more than KOZEMPIL_MOST_NAMEPLATES */
    KOZEMPIL_REFUSED_FIRST_READING_LOST = 13    /* a register whose first reading is lost */
};

/* An account can't arise where it carries more than its limit in a period, has more standing than its limit, or a next month above
 * KOZEMPIL_LAST_MONTH + 1; or where it is open with terms or prices that an opening refuses by 4, 12, 5 or 6. */

/* Periods, dearest first: what to add to a place "by period". */
enum { KOZEMPIL_PERIOD_CRITICAL = 0, KOZEMPIL_PERIOD_ON_PEAK = 1, KOZEMPIL_PERIOD_OFF_PEAK = 2, KOZEMPIL_PERIOD_DISCOUNT = 3 };

/* Codes: the kind of a call, riders, classes, whether a customer is assisted, the stage of an account, and the registers of a day view. */
enum { KOZEMPIL_KIND_OPENING = 0, KOZEMPIL_KIND_REPRICING = 1, KOZEMPIL_KIND_BILLING = 2, KOZEMPIL_KIND_CLOSING = 3 };
enum { KOZEMPIL_RIDER_BANKED = 0, KOZEMPIL_RIDER_BRIDGE = 1 };
enum { KOZEMPIL_CLASS_HOME = 0, KOZEMPIL_CLASS_BUSINESS = 1 };
enum { KOZEMPIL_NOT_ASSISTED = 0, KOZEMPIL_ASSISTED = 1 };
enum { KOZEMPIL_STAGE_FRESH = 0, KOZEMPIL_STAGE_OPEN = 1, KOZEMPIL_STAGE_CLOSED = 2 };
enum { KOZEMPIL_DELIVERED = 0, KOZEMPIL_RECEIVED = 1 };

/* Nameplates: how many there are, and KOZEMPIL_MOST_NAMEPLATES places, of which the first so many are the nameplates in W. What a
 * nameplate limits, or is charged for, goes by their total; that each is at least 1 W goes by each. Any number can stand in these places: a wrong one
 * is refused by 12 or 5, in an open account by 3, and never makes the numbers no call or no account. What stands in a place past the nameplates is
 * none: no rule looks at it, and an account has it as it came. */

/* Places of a call. Numbers that its kind doesn't name aren't read; write 0. */
enum {
    KOZEMPIL_CALL_KIND = 0,

    /* of an opening */
    KOZEMPIL_CALL_RIDER = 1,
    KOZEMPIL_CALL_CLASS = 2,
    KOZEMPIL_CALL_NAMEPLATE_COUNT = 3,          /* how many nameplates there are */
    KOZEMPIL_CALL_NAMEPLATE = 4,                /* the first of KOZEMPIL_MOST_NAMEPLATES places */
    KOZEMPIL_CALL_DEMAND_LIMIT = 12,            /* demand limit */
    KOZEMPIL_CALL_ASSISTED = 13,
    KOZEMPIL_CALL_FIRST_MONTH = 25,

    /* of an opening and a repricing: the price list */
    KOZEMPIL_CALL_ENERGY_PRICE = 14,            /* by period */
    KOZEMPIL_CALL_DEMAND_PRICE = 18,
    KOZEMPIL_CALL_STANDBY_PRICE = 19,
    KOZEMPIL_CALL_BYPASS_PRICE = 20,
    KOZEMPIL_CALL_CREDIT_PRICE = 21,
    KOZEMPIL_CALL_DISTRIBUTION_PRICE = 22,
    KOZEMPIL_CALL_BASIC = 23,
    KOZEMPIL_CALL_MINIMUM = 24,

    /* of a billing */
    KOZEMPIL_CALL_MONTH = 1,
    KOZEMPIL_CALL_DELIVERED_COUNT = 2,          /* how many delivered readings it takes */
    KOZEMPIL_CALL_RECEIVED_COUNT = 3,           /* how many received readings it takes */
    KOZEMPIL_CALL_CRITICAL_DAYS = 4             /* bit d - 1 is set for day d, bit 0 being the lowest */
};

/* Places of an answer. What a call doesn't return is 0, and so is everything but the number after a refusal. */
enum {
    KOZEMPIL_ANSWER_NUMBER = 0,

    /* of a billing, each by period */
    KOZEMPIL_ANSWER_FORFEITED = 1,
    KOZEMPIL_ANSWER_DELIVERED = 5,
    KOZEMPIL_ANSWER_EXPORTED = 9,
    KOZEMPIL_ANSWER_OWN = 13,
    KOZEMPIL_ANSWER_CREDIT = 17,
    KOZEMPIL_ANSWER_NEED = 21,
    KOZEMPIL_ANSWER_MOVED_OUT = 25,
    KOZEMPIL_ANSWER_MOVED_IN = 29,
    KOZEMPIL_ANSWER_BILLED = 33,
    KOZEMPIL_ANSWER_LEFT = 37,
    KOZEMPIL_ANSWER_PAID = 41,

    /* of a billing, in cents */
    KOZEMPIL_ANSWER_ENERGY = 45,
    KOZEMPIL_ANSWER_DEMAND = 46,                /* for twice the most Wh delivered in a half-hour that is critical or on-peak, as W */
    KOZEMPIL_ANSWER_STANDBY = 47,
    KOZEMPIL_ANSWER_BYPASS = 48,
    KOZEMPIL_ANSWER_SHORTFALL = 49,
    KOZEMPIL_ANSWER_GROSS = 50,
    KOZEMPIL_ANSWER_GRANTED = 51,
    KOZEMPIL_ANSWER_USED = 52,
    KOZEMPIL_ANSWER_DUE = 53,
    KOZEMPIL_ANSWER_STANDING = 54,              /* after the bill */

    /* of a closing */
    KOZEMPIL_ANSWER_CLOSING_FORFEITED = 55,     /* by period */
    KOZEMPIL_ANSWER_REFUNDED = 59
};

/* Places of an account. */
enum {
    KOZEMPIL_ACCOUNT_STAGE = 0,
    KOZEMPIL_ACCOUNT_RIDER = 1,
    KOZEMPIL_ACCOUNT_CLASS = 2,
    KOZEMPIL_ACCOUNT_NAMEPLATE_COUNT = 3,       /* how many nameplates there are */
    KOZEMPIL_ACCOUNT_NAMEPLATE = 4,             /* the first of KOZEMPIL_MOST_NAMEPLATES places */
    KOZEMPIL_ACCOUNT_DEMAND_LIMIT = 12,
    KOZEMPIL_ACCOUNT_ASSISTED = 13,
    KOZEMPIL_ACCOUNT_ENERGY_PRICE = 14,         /* by period */
    KOZEMPIL_ACCOUNT_DEMAND_PRICE = 18,
    KOZEMPIL_ACCOUNT_STANDBY_PRICE = 19,
    KOZEMPIL_ACCOUNT_BYPASS_PRICE = 20,
    KOZEMPIL_ACCOUNT_CREDIT_PRICE = 21,
    KOZEMPIL_ACCOUNT_DISTRIBUTION_PRICE = 22,
    KOZEMPIL_ACCOUNT_BASIC = 23,
    KOZEMPIL_ACCOUNT_MINIMUM = 24,
    KOZEMPIL_ACCOUNT_NEXT = 25,                 /* next month */
    KOZEMPIL_ACCOUNT_CARRIED = 26,              /* by period */
    KOZEMPIL_ACCOUNT_STANDING = 30
};

/* Places of a day view: how many readings of the register come before it, and how many it has. */
enum { KOZEMPIL_VIEW_START = 0, KOZEMPIL_VIEW_COUNT = 1 };
#define KOZEMPIL_VIEW_LENGTH 2

/* What became of a list of calls: how many were answered, and for how many of them the whole answer was written. */
struct kozempil_counts {
    uint64_t answered;
    uint64_t written;
};

/* Answers a list of calls from the fresh account, in which every number is 0, and writes the account after it.
 *
 * calls: KOZEMPIL_CALL_LENGTH numbers for each call. The list ends at the first record that is no call (an unknown kind, rider, class or assisted,
 *     or a month or critical days of more than 32 bits), and fewer numbers at the end are none: compare `answered` with how many you lent.
 * delivered, received: the readings of all billings, one billing after the other. Where fewer are lent than a billing says, it takes
 *     what is left.
 * answers: KOZEMPIL_ANSWER_LENGTH numbers for each call, in the order of the calls. Where they don't all fit, all calls are answered all the same,
 *     `written` is less than `answered`, and the front of one answer more may be there.
 * account: KOZEMPIL_ACCOUNT_LENGTH numbers, after the last call that was answered.
 */
struct kozempil_counts kozempil_run(
    const uint64_t *calls, size_t calls_len,
    const uint32_t *delivered, size_t delivered_len,
    const uint32_t *received, size_t received_len,
    uint64_t *answers, size_t answers_len,
    uint64_t *account, size_t account_len);

/* Answers one call on any account, and writes the account after it. Returns 1, or 0 where the numbers are no account or no call, and then
 * nothing is written. An account that can't arise is refused by 1, 2 or 3.
 *
 * account: KOZEMPIL_ACCOUNT_LENGTH numbers. They are no account where there are more or fewer of them, or where a stage, rider, class or assisted is
 *     unknown, or the next month has more than 32 bits.
 * call: KOZEMPIL_CALL_LENGTH numbers, no more and no fewer.
 * delivered, received: the readings of a billing. All that are lent are taken; how many the call says isn't read.
 * answer, after: KOZEMPIL_ANSWER_LENGTH and KOZEMPIL_ACCOUNT_LENGTH numbers.
 */
uint32_t kozempil_call(
    const uint64_t *account, size_t account_len,
    const uint64_t *call, size_t call_len,
    const uint32_t *delivered, size_t delivered_len,
    const uint32_t *received, size_t received_len,
    uint64_t *answer, size_t answer_len,
    uint64_t *after, size_t after_len);

/* How many readings a register of a month has: 96 for each of its days; from 2007 on 4 fewer in March and 4 more in November,
 * when the clocks change. Months above the last one follow the same rules. */
uint64_t kozempil_register_length(uint32_t month);

/* Writes where the readings of one day are in a register. There are none where the month is above the last one, the day isn't in the month
 * (1 is its first), a register has another length than the month's, or the number names no register.
 *
 * part: KOZEMPIL_VIEW_LENGTH numbers; 0 and 0 where there are no readings.
 */
void kozempil_day_view(
    const uint32_t *delivered, size_t delivered_len,
    const uint32_t *received, size_t received_len,
    uint32_t month, uint32_t day, uint32_t number,
    uint64_t *part, size_t part_len);

/* Writes what the program `statement` prints for a whole input, and returns how many bytes that is: where it is more than text_len, the front
 * of it was written. No zero byte is added. It takes some 40 KiB of the stack. docs/STATEMENT.md says what to write and what is printed.
 */
uint64_t kozempil_statement(
    const uint8_t *input, size_t input_len,
    uint8_t *text, size_t text_len);

#ifdef __cplusplus
}
#endif

#endif
