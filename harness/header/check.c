/* Holds every number of include/kozempil.h to what the library answers. Prints what differs; its status is 0 only where nothing does.
 *
 * Each amount that is expected here is worked out by hand from the rules, in the comment beside it. Accounts are written by their places, so
 * that a place that is wrong in the header gives a wrong bill.
 */
#include "kozempil.h"

#include <inttypes.h>
#include <pthread.h>
#include <stdio.h>
#include <string.h>

#define NONE NULL, 0

static unsigned compared;
static unsigned differences;

static void same(const char *what, uint64_t got, uint64_t expected)
{
    compared++;
    if (got != expected) {
        differences++;
        printf("%s: the library says %" PRIu64 ", expected %" PRIu64 "\n", what, got, expected);
    }
}

static uint64_t account[KOZEMPIL_ACCOUNT_LENGTH];
static uint64_t after[KOZEMPIL_ACCOUNT_LENGTH];
static uint64_t call[KOZEMPIL_CALL_LENGTH];
static uint64_t answer[KOZEMPIL_ANSWER_LENGTH];
static uint32_t delivered[KOZEMPIL_MOST_READINGS + 1];
static uint32_t received[KOZEMPIL_MOST_READINGS + 1];

/* January 2000 begins on a Saturday and is in winter: on-peak are the quarters 68 to 83, discount 4 to 23 of each day. */
enum { JANUARY = 0, JUNE = 5, LENGTH = 31 * 96, OFF = 30, PEAK = 70, CHEAP = 10 };

static void clear(void)
{
    memset(account, 0, sizeof account);
    memset(call, 0, sizeof call);
    memset(delivered, 0, sizeof delivered);
    memset(received, 0, sizeof received);
}

/* A banked home of 5,000 W that has been opened, with prices 40, 30, 20 and 10 thousand, January 2000 being next. */
static void open_home(void)
{
    clear();
    account[KOZEMPIL_ACCOUNT_STAGE] = KOZEMPIL_STAGE_OPEN;
    account[KOZEMPIL_ACCOUNT_RIDER] = KOZEMPIL_RIDER_BANKED;
    account[KOZEMPIL_ACCOUNT_CLASS] = KOZEMPIL_CLASS_HOME;
    account[KOZEMPIL_ACCOUNT_NAMEPLATE_COUNT] = 1;
    account[KOZEMPIL_ACCOUNT_NAMEPLATE] = 5000;
    account[KOZEMPIL_ACCOUNT_DEMAND_LIMIT] = 6000;
    account[KOZEMPIL_ACCOUNT_ENERGY_PRICE + KOZEMPIL_PERIOD_CRITICAL] = 40000;
    account[KOZEMPIL_ACCOUNT_ENERGY_PRICE + KOZEMPIL_PERIOD_ON_PEAK] = 30000;
    account[KOZEMPIL_ACCOUNT_ENERGY_PRICE + KOZEMPIL_PERIOD_OFF_PEAK] = 20000;
    account[KOZEMPIL_ACCOUNT_ENERGY_PRICE + KOZEMPIL_PERIOD_DISCOUNT] = 10000;
    account[KOZEMPIL_ACCOUNT_NEXT] = JANUARY;
}

/* The call on the account, with registers of so many readings: the number of the answer. */
static uint64_t number_with(size_t readings)
{
    memset(answer, 0xff, sizeof answer);
    memset(after, 0xff, sizeof after);
    same("kozempil_call returns",
         kozempil_call(account, KOZEMPIL_ACCOUNT_LENGTH, call, KOZEMPIL_CALL_LENGTH, delivered, readings, received, readings,
                       answer, KOZEMPIL_ANSWER_LENGTH, after, KOZEMPIL_ACCOUNT_LENGTH), 1);
    return answer[KOZEMPIL_ANSWER_NUMBER];
}

static uint64_t number(void)
{
    return number_with(LENGTH);
}

static void ask_to_bill(uint64_t month, uint64_t days)
{
    memset(call, 0, sizeof call);
    call[KOZEMPIL_CALL_KIND] = KOZEMPIL_KIND_BILLING;
    call[KOZEMPIL_CALL_MONTH] = month;
    call[KOZEMPIL_CALL_CRITICAL_DAYS] = days;
}

static void ask_to_close(void)
{
    memset(call, 0, sizeof call);
    call[KOZEMPIL_CALL_KIND] = KOZEMPIL_KIND_CLOSING;
}

/* An opening of a fresh account: a home with falling prices. */
static void ask_to_open(void)
{
    clear();
    call[KOZEMPIL_CALL_KIND] = KOZEMPIL_KIND_OPENING;
    call[KOZEMPIL_CALL_NAMEPLATE_COUNT] = 1;
    call[KOZEMPIL_CALL_NAMEPLATE] = 5000;
    call[KOZEMPIL_CALL_DEMAND_LIMIT] = 6000;
}

static void codes_and_places_of_an_opening(void)
{
    static const struct {
        const char *name;
        int call, account;
        uint64_t value;
    } places[] = {
        {"rider", KOZEMPIL_CALL_RIDER, KOZEMPIL_ACCOUNT_RIDER, KOZEMPIL_RIDER_BRIDGE},
        {"class", KOZEMPIL_CALL_CLASS, KOZEMPIL_ACCOUNT_CLASS, KOZEMPIL_CLASS_HOME},
        {"count", KOZEMPIL_CALL_NAMEPLATE_COUNT, KOZEMPIL_ACCOUNT_NAMEPLATE_COUNT, 3},
        {"nameplate 0", KOZEMPIL_CALL_NAMEPLATE, KOZEMPIL_ACCOUNT_NAMEPLATE, 7001},
        {"nameplate 1", KOZEMPIL_CALL_NAMEPLATE + 1, KOZEMPIL_ACCOUNT_NAMEPLATE + 1, 801},
        {"nameplate 2", KOZEMPIL_CALL_NAMEPLATE + 2, KOZEMPIL_ACCOUNT_NAMEPLATE + 2, 802},
        {"past the nameplates", KOZEMPIL_CALL_NAMEPLATE + 3, KOZEMPIL_ACCOUNT_NAMEPLATE + 3, UINT64_MAX},
        {"last place of nameplates", KOZEMPIL_CALL_NAMEPLATE + KOZEMPIL_MOST_NAMEPLATES - 1,
         KOZEMPIL_ACCOUNT_NAMEPLATE + KOZEMPIL_MOST_NAMEPLATES - 1, UINT64_MAX - 1},
        {"limit", KOZEMPIL_CALL_DEMAND_LIMIT, KOZEMPIL_ACCOUNT_DEMAND_LIMIT, 8604},
        {"assisted", KOZEMPIL_CALL_ASSISTED, KOZEMPIL_ACCOUNT_ASSISTED, KOZEMPIL_ASSISTED},
        {"critical", KOZEMPIL_CALL_ENERGY_PRICE + KOZEMPIL_PERIOD_CRITICAL, KOZEMPIL_ACCOUNT_ENERGY_PRICE + KOZEMPIL_PERIOD_CRITICAL, 904},
        {"on-peak", KOZEMPIL_CALL_ENERGY_PRICE + KOZEMPIL_PERIOD_ON_PEAK, KOZEMPIL_ACCOUNT_ENERGY_PRICE + KOZEMPIL_PERIOD_ON_PEAK, 903},
        {"off-peak", KOZEMPIL_CALL_ENERGY_PRICE + KOZEMPIL_PERIOD_OFF_PEAK, KOZEMPIL_ACCOUNT_ENERGY_PRICE + KOZEMPIL_PERIOD_OFF_PEAK, 902},
        {"discount", KOZEMPIL_CALL_ENERGY_PRICE + KOZEMPIL_PERIOD_DISCOUNT, KOZEMPIL_ACCOUNT_ENERGY_PRICE + KOZEMPIL_PERIOD_DISCOUNT, 901},
        {"demand", KOZEMPIL_CALL_DEMAND_PRICE, KOZEMPIL_ACCOUNT_DEMAND_PRICE, 10},
        {"standby", KOZEMPIL_CALL_STANDBY_PRICE, KOZEMPIL_ACCOUNT_STANDBY_PRICE, 11},
        {"bypass", KOZEMPIL_CALL_BYPASS_PRICE, KOZEMPIL_ACCOUNT_BYPASS_PRICE, 12},
        {"credit", KOZEMPIL_CALL_CREDIT_PRICE, KOZEMPIL_ACCOUNT_CREDIT_PRICE, 13},
        {"distribution", KOZEMPIL_CALL_DISTRIBUTION_PRICE, KOZEMPIL_ACCOUNT_DISTRIBUTION_PRICE, 14},
        {"basic", KOZEMPIL_CALL_BASIC, KOZEMPIL_ACCOUNT_BASIC, 15},
        {"minimum", KOZEMPIL_CALL_MINIMUM, KOZEMPIL_ACCOUNT_MINIMUM, 16},
        {"first month", KOZEMPIL_CALL_FIRST_MONTH, KOZEMPIL_ACCOUNT_NEXT, 17},
    };

    clear();
    call[KOZEMPIL_CALL_KIND] = KOZEMPIL_KIND_OPENING;
    for (size_t i = 0; i < sizeof places / sizeof *places; i++)
        call[places[i].call] = places[i].value;
    same("opening", number(), KOZEMPIL_ACCEPTED);
    for (size_t i = 0; i < sizeof places / sizeof *places; i++)
        same(places[i].name, after[places[i].account], places[i].value);
    same("opened", after[KOZEMPIL_ACCOUNT_STAGE], KOZEMPIL_STAGE_OPEN);

    open_home();
    account[KOZEMPIL_ACCOUNT_CARRIED + KOZEMPIL_PERIOD_CRITICAL] = 81;
    account[KOZEMPIL_ACCOUNT_CARRIED + KOZEMPIL_PERIOD_ON_PEAK] = 82;
    account[KOZEMPIL_ACCOUNT_CARRIED + KOZEMPIL_PERIOD_OFF_PEAK] = 83;
    account[KOZEMPIL_ACCOUNT_CARRIED + KOZEMPIL_PERIOD_DISCOUNT] = 84;
    account[KOZEMPIL_ACCOUNT_STANDING] = 85;
    ask_to_close();
    same("closing", number(), KOZEMPIL_ACCEPTED);
    same("closed", after[KOZEMPIL_ACCOUNT_STAGE], KOZEMPIL_STAGE_CLOSED);
    for (int period = KOZEMPIL_PERIOD_CRITICAL; period <= KOZEMPIL_PERIOD_DISCOUNT; period++) {
        same("forfeited by a closing", answer[KOZEMPIL_ANSWER_CLOSING_FORFEITED + period], 81 + (uint64_t)period);
        same("carried after a closing", after[KOZEMPIL_ACCOUNT_CARRIED + period], 0);
    }
    same("refunded", answer[KOZEMPIL_ANSWER_REFUNDED], 85);
    same("standing after a closing", after[KOZEMPIL_ACCOUNT_STANDING], 0);

    open_home();
    call[KOZEMPIL_CALL_KIND] = KOZEMPIL_KIND_REPRICING;
    call[KOZEMPIL_CALL_ENERGY_PRICE + KOZEMPIL_PERIOD_CRITICAL] = 1;
    same("repricing", number(), KOZEMPIL_ACCEPTED);
    same("repriced", after[KOZEMPIL_ACCOUNT_ENERGY_PRICE + KOZEMPIL_PERIOD_CRITICAL], 1);
}

/* Banked, January 2000, day 1 critical. Delivered: 8,000 Wh critical, 4,000 on-peak, 6,000 off-peak, 10,000 discount. Received: 16,000 Wh on-peak
 * on day 2. Carried: 1,000 critical, 2,000 discount.
 *   own        1,000  4,000      0  2,000
 *   credit         0 12,000      0      0
 *   need       7,000      0  6,000  8,000
 *   moved out      0 12,000      0      0
 *   moved in       0      0  6,000  6,000
 *   billed     7,000      0      0  2,000    energy: 7,000 x 40,000 + 2,000 x 10,000 = 300,000,000, which is 300 cents
 * Demand: the largest critical or on-peak half-hour, quarters 70 and 71 of day 1, has 8,000 + 0 Wh, so 16,000 W at 5,000: 80 cents. Basic 1,400.
 * Gross and due 1,780. */
static void rows_of_a_banked_bill(void)
{
    static const uint64_t rows[][5] = {
        {KOZEMPIL_ANSWER_DELIVERED, 8000, 4000, 6000, 10000},
        {KOZEMPIL_ANSWER_EXPORTED, 0, 16000, 0, 0},
        {KOZEMPIL_ANSWER_OWN, 1000, 4000, 0, 2000},
        {KOZEMPIL_ANSWER_CREDIT, 0, 12000, 0, 0},
        {KOZEMPIL_ANSWER_NEED, 7000, 0, 6000, 8000},
        {KOZEMPIL_ANSWER_MOVED_OUT, 0, 12000, 0, 0},
        {KOZEMPIL_ANSWER_MOVED_IN, 0, 0, 6000, 6000},
        {KOZEMPIL_ANSWER_BILLED, 7000, 0, 0, 2000},
        {KOZEMPIL_ANSWER_FORFEITED, 0, 0, 0, 0},
        {KOZEMPIL_ANSWER_LEFT, 0, 0, 0, 0},
        {KOZEMPIL_ANSWER_PAID, 0, 0, 0, 0},
    };

    open_home();
    account[KOZEMPIL_ACCOUNT_DEMAND_PRICE] = 5000;
    account[KOZEMPIL_ACCOUNT_BASIC] = 1400;
    account[KOZEMPIL_ACCOUNT_CARRIED + KOZEMPIL_PERIOD_CRITICAL] = 1000;
    account[KOZEMPIL_ACCOUNT_CARRIED + KOZEMPIL_PERIOD_DISCOUNT] = 2000;
    delivered[PEAK] = 8000;
    delivered[96 + PEAK] = 4000;
    delivered[OFF] = 6000;
    delivered[CHEAP] = 10000;
    received[96 + PEAK] = 16000;
    ask_to_bill(JANUARY, 1);
    same("banked bill", number(), KOZEMPIL_ACCEPTED);
    for (size_t row = 0; row < sizeof rows / sizeof *rows; row++)
        for (int period = KOZEMPIL_PERIOD_CRITICAL; period <= KOZEMPIL_PERIOD_DISCOUNT; period++)
            same("row of a banked bill", answer[rows[row][0] + (uint64_t)period], rows[row][1 + period]);
    same("energy", answer[KOZEMPIL_ANSWER_ENERGY], 300);
    same("demand", answer[KOZEMPIL_ANSWER_DEMAND], 80);
    same("gross", answer[KOZEMPIL_ANSWER_GROSS], 1780);
    same("due", answer[KOZEMPIL_ANSWER_DUE], 1780);
    same("next month", after[KOZEMPIL_ACCOUNT_NEXT], JANUARY + 1);

    /* June: what is carried is forfeited, and what June exports is left. June 2000 has 30 days. */
    open_home();
    account[KOZEMPIL_ACCOUNT_NEXT] = JUNE;
    account[KOZEMPIL_ACCOUNT_CARRIED + KOZEMPIL_PERIOD_OFF_PEAK] = 5000;
    received[CHEAP] = 700;
    ask_to_bill(JUNE, 0);
    same("June", number_with(30 * 96), KOZEMPIL_ACCEPTED);
    same("forfeited", answer[KOZEMPIL_ANSWER_FORFEITED + KOZEMPIL_PERIOD_OFF_PEAK], 5000);
    same("left", answer[KOZEMPIL_ANSWER_LEFT + KOZEMPIL_PERIOD_DISCOUNT], 700);
    same("carried after June", after[KOZEMPIL_ACCOUNT_CARRIED + KOZEMPIL_PERIOD_DISCOUNT], 700);
}

/* Bridge, a home of 8,001 W: assisted, and too large to be exempt. Delivered 100,000 Wh off-peak; received 10,000 Wh on-peak, which move to
 * off-peak, and 200,000 Wh discount, which are paid. Billed 90,000 Wh at 20,000: energy 1,800. Paid at 3,350: granted 670. Bypass 8,001 W at
 * 50,000 is 400.05, so 400. Distribution 90,000 Wh at 4,493 is 404.37, so 404; minimum 2,200 less basic 1,400 and 404 is a shortfall of 396.
 * Gross 1,400 + 400 + 1,800 + 396 = 3,996. Standing 30 and granted 670 are used, and 3,296 are due. */
static void lines_of_a_bridge_bill(void)
{
    open_home();
    account[KOZEMPIL_ACCOUNT_RIDER] = KOZEMPIL_RIDER_BRIDGE;
    account[KOZEMPIL_ACCOUNT_NAMEPLATE] = 8001;
    account[KOZEMPIL_ACCOUNT_DEMAND_LIMIT] = 9000;
    account[KOZEMPIL_ACCOUNT_ASSISTED] = KOZEMPIL_ASSISTED;
    account[KOZEMPIL_ACCOUNT_BYPASS_PRICE] = 50000;
    account[KOZEMPIL_ACCOUNT_CREDIT_PRICE] = 3350;
    account[KOZEMPIL_ACCOUNT_DISTRIBUTION_PRICE] = 4493;
    account[KOZEMPIL_ACCOUNT_BASIC] = 1400;
    account[KOZEMPIL_ACCOUNT_MINIMUM] = 2200;
    account[KOZEMPIL_ACCOUNT_STANDING] = 30;
    delivered[OFF] = 100000;
    received[PEAK] = 10000;
    received[CHEAP] = 200000;
    ask_to_bill(JANUARY, 0);
    same("bridge bill", number(), KOZEMPIL_ACCEPTED);
    same("paid", answer[KOZEMPIL_ANSWER_PAID + KOZEMPIL_PERIOD_DISCOUNT], 200000);
    same("energy", answer[KOZEMPIL_ANSWER_ENERGY], 1800);
    same("bypass", answer[KOZEMPIL_ANSWER_BYPASS], 400);
    same("shortfall", answer[KOZEMPIL_ANSWER_SHORTFALL], 396);
    same("gross", answer[KOZEMPIL_ANSWER_GROSS], 3996);
    same("granted", answer[KOZEMPIL_ANSWER_GRANTED], 670);
    same("used", answer[KOZEMPIL_ANSWER_USED], 700);
    same("due", answer[KOZEMPIL_ANSWER_DUE], 3296);
    same("standing", answer[KOZEMPIL_ANSWER_STANDING], 0);

    same("credit", answer[KOZEMPIL_ANSWER_CREDIT + KOZEMPIL_PERIOD_DISCOUNT], 200000);
    same("moved out", answer[KOZEMPIL_ANSWER_MOVED_OUT + KOZEMPIL_PERIOD_DISCOUNT], 0);

    /* A home of 8,000 W that isn't assisted: bypass 400, and the same shortfall. */
    account[KOZEMPIL_ACCOUNT_ASSISTED] = KOZEMPIL_NOT_ASSISTED;
    account[KOZEMPIL_ACCOUNT_NAMEPLATE] = 8000;
    same("bridge bill of a customer who isn't assisted", number(), KOZEMPIL_ACCEPTED);
    same("bypass", answer[KOZEMPIL_ANSWER_BYPASS], 400);
    same("shortfall", answer[KOZEMPIL_ANSWER_SHORTFALL], 396);

    /* Assisted up to 8,000 W: no shortfall. Nothing is delivered, so gross is basic and bypass, 1,400 + 400, of which the money covers 1,800
     * of 2,000 + 30 standing and granted: 200,000 x 10,000 is 2,000 cents. */
    account[KOZEMPIL_ACCOUNT_ASSISTED] = KOZEMPIL_ASSISTED;
    account[KOZEMPIL_ACCOUNT_CREDIT_PRICE] = 10000;
    delivered[OFF] = 0;
    received[PEAK] = 0;
    same("bridge bill of an exempt customer", number(), KOZEMPIL_ACCEPTED);
    same("no shortfall", answer[KOZEMPIL_ANSWER_SHORTFALL], 0);
    same("used", answer[KOZEMPIL_ANSWER_USED], 1800);
    same("standing", answer[KOZEMPIL_ANSWER_STANDING], 230);
    same("standing of the account", after[KOZEMPIL_ACCOUNT_STANDING], 230);

    /* A business of 200,000 W pays standby: at 5,000 that is 1,000 cents. */
    open_home();
    account[KOZEMPIL_ACCOUNT_CLASS] = KOZEMPIL_CLASS_BUSINESS;
    account[KOZEMPIL_ACCOUNT_NAMEPLATE] = 200000;
    account[KOZEMPIL_ACCOUNT_DEMAND_LIMIT] = 200000;
    account[KOZEMPIL_ACCOUNT_STANDBY_PRICE] = 5000;
    ask_to_bill(JANUARY, 0);
    same("bill of a business", number(), KOZEMPIL_ACCEPTED);
    same("standby", answer[KOZEMPIL_ANSWER_STANDBY], 1000);
}

/* Two roofs of 5,000 and 3,001 W, 8,001 W in all, of an assisted home under the bridge rider: bypass at 50,000 is 400.05, so 400, and the minimum of
 * 2,200 is not spared. With 3,000 W on the second roof it is. Of a business, 60,000 and 40,001 W at 172,350 are a standby of 17,235.17, so 17,235. */
static void several_nameplates(void)
{
    open_home();
    account[KOZEMPIL_ACCOUNT_RIDER] = KOZEMPIL_RIDER_BRIDGE;
    account[KOZEMPIL_ACCOUNT_NAMEPLATE_COUNT] = 2;
    account[KOZEMPIL_ACCOUNT_NAMEPLATE + 1] = 3001;
    account[KOZEMPIL_ACCOUNT_NAMEPLATE + 2] = UINT64_MAX;
    account[KOZEMPIL_ACCOUNT_DEMAND_LIMIT] = 9000;
    account[KOZEMPIL_ACCOUNT_ASSISTED] = KOZEMPIL_ASSISTED;
    account[KOZEMPIL_ACCOUNT_BYPASS_PRICE] = 50000;
    account[KOZEMPIL_ACCOUNT_MINIMUM] = 2200;
    ask_to_bill(JANUARY, 0);
    same("bill of two roofs", number(), KOZEMPIL_ACCEPTED);
    same("bypass of both", answer[KOZEMPIL_ANSWER_BYPASS], 400);
    same("shortfall of both", answer[KOZEMPIL_ANSWER_SHORTFALL], 2200);
    same("second roof", after[KOZEMPIL_ACCOUNT_NAMEPLATE + 1], 3001);
    same("past the roofs", after[KOZEMPIL_ACCOUNT_NAMEPLATE + 2], UINT64_MAX);
    account[KOZEMPIL_ACCOUNT_NAMEPLATE + 1] = 3000;
    same("bill of a watt less", number(), KOZEMPIL_ACCEPTED);
    same("shortfall of a watt less", answer[KOZEMPIL_ANSWER_SHORTFALL], 0);
    account[KOZEMPIL_ACCOUNT_NAMEPLATE_COUNT] = 3;
    same("account whose total doesn't fit 64 bits", number(), KOZEMPIL_REFUSED_CLOSED);
    account[KOZEMPIL_ACCOUNT_NAMEPLATE_COUNT] = KOZEMPIL_MOST_NAMEPLATES + 1;
    same("account of nine", number(), KOZEMPIL_REFUSED_CLOSED);
    same("count of the account after it", after[KOZEMPIL_ACCOUNT_NAMEPLATE_COUNT], KOZEMPIL_MOST_NAMEPLATES + 1);

    open_home();
    account[KOZEMPIL_ACCOUNT_CLASS] = KOZEMPIL_CLASS_BUSINESS;
    account[KOZEMPIL_ACCOUNT_NAMEPLATE_COUNT] = 2;
    account[KOZEMPIL_ACCOUNT_NAMEPLATE] = 60000;
    account[KOZEMPIL_ACCOUNT_NAMEPLATE + 1] = 40001;
    account[KOZEMPIL_ACCOUNT_DEMAND_LIMIT] = 120000;
    account[KOZEMPIL_ACCOUNT_STANDBY_PRICE] = 172350;
    ask_to_bill(JANUARY, 0);
    same("bill of a business of two roofs", number(), KOZEMPIL_ACCEPTED);
    same("standby of both", answer[KOZEMPIL_ANSWER_STANDBY], 17235);

    /* 12, before 5 and behind 4. A total of 64 bits and more is refused by 5, also where it would wrap to 5,000. */
    ask_to_open();
    call[KOZEMPIL_CALL_DEMAND_LIMIT] = UINT64_MAX;
    for (int place = 0; place < KOZEMPIL_MOST_NAMEPLATES; place++)
        call[KOZEMPIL_CALL_NAMEPLATE + place] = 1000;
    for (uint64_t count = 1; count <= KOZEMPIL_MOST_NAMEPLATES; count++) {
        call[KOZEMPIL_CALL_NAMEPLATE_COUNT] = count;
        same("one to eight nameplates", number(), KOZEMPIL_ACCEPTED);
    }
    call[KOZEMPIL_CALL_NAMEPLATE + KOZEMPIL_MOST_NAMEPLATES - 1] = 0;
    same("the last one 0", number(), KOZEMPIL_REFUSED_CAPACITY);
    call[KOZEMPIL_CALL_NAMEPLATE_COUNT] = KOZEMPIL_MOST_NAMEPLATES + 1;
    same("nine nameplates", number(), KOZEMPIL_REFUSED_NAMEPLATES);
    call[KOZEMPIL_CALL_NAMEPLATE_COUNT] = UINT64_C(4294967297);
    same("so many that 32 bits have 1", number(), KOZEMPIL_REFUSED_NAMEPLATES);
    call[KOZEMPIL_CALL_NAMEPLATE_COUNT] = 0;
    same("no nameplates", number(), KOZEMPIL_REFUSED_NAMEPLATES);
    call[KOZEMPIL_CALL_MINIMUM] = KOZEMPIL_AMOUNT_LIMIT + 1;
    same("no nameplates and a minimum above its limit", number(), KOZEMPIL_REFUSED_PRICE_LIST);
    ask_to_open();
    call[KOZEMPIL_CALL_NAMEPLATE_COUNT] = 2;
    call[KOZEMPIL_CALL_NAMEPLATE] = UINT64_C(9223372036854775808);
    call[KOZEMPIL_CALL_NAMEPLATE + 1] = UINT64_C(9223372036854780808);
    same("total past 64 bits", number(), KOZEMPIL_REFUSED_CAPACITY);
    call[KOZEMPIL_CALL_DEMAND_LIMIT] = UINT64_MAX;
    same("total past 64 bits, and the largest demand limit", number(), KOZEMPIL_REFUSED_CAPACITY);
}

static void refusals_and_limits(void)
{
    /* 1, 2, 3 */
    clear();
    account[KOZEMPIL_ACCOUNT_STAGE] = KOZEMPIL_STAGE_FRESH;
    ask_to_close();
    same("not open", number(), KOZEMPIL_REFUSED_NOT_OPEN);
    ask_to_open();
    account[KOZEMPIL_ACCOUNT_STAGE] = KOZEMPIL_STAGE_OPEN;
    same("open already", number(), KOZEMPIL_REFUSED_OPEN_ALREADY);
    account[KOZEMPIL_ACCOUNT_STAGE] = KOZEMPIL_STAGE_CLOSED;
    same("closed", number(), KOZEMPIL_REFUSED_CLOSED);
    open_home();
    ask_to_close();
    for (int period = KOZEMPIL_PERIOD_CRITICAL; period <= KOZEMPIL_PERIOD_DISCOUNT; period++) {
        account[KOZEMPIL_ACCOUNT_CARRIED + period] = KOZEMPIL_CARRIED_LIMIT;
        same("all that can be carried", number(), KOZEMPIL_ACCEPTED);
        account[KOZEMPIL_ACCOUNT_CARRIED + period] = KOZEMPIL_CARRIED_LIMIT + 1;
        same("too much carried", number(), KOZEMPIL_REFUSED_CLOSED);
        account[KOZEMPIL_ACCOUNT_CARRIED + period] = 0;
    }
    account[KOZEMPIL_ACCOUNT_STANDING] = KOZEMPIL_STANDING_LIMIT;
    same("all that can stand", number(), KOZEMPIL_ACCEPTED);
    account[KOZEMPIL_ACCOUNT_STANDING] = KOZEMPIL_STANDING_LIMIT + 1;
    same("too much standing", number(), KOZEMPIL_REFUSED_CLOSED);

    /* 4: each price and amount at its limit, and one more. The energy prices fall. */
    for (int place = KOZEMPIL_CALL_ENERGY_PRICE; place <= KOZEMPIL_CALL_MINIMUM; place++) {
        uint64_t limit = place < KOZEMPIL_CALL_BASIC ? KOZEMPIL_PRICE_LIMIT : KOZEMPIL_AMOUNT_LIMIT;
        ask_to_open();
        for (int before = KOZEMPIL_CALL_ENERGY_PRICE; before < place && place < KOZEMPIL_CALL_DEMAND_PRICE; before++)
            call[before] = limit;
        call[place] = limit;
        same("price at its limit", number(), KOZEMPIL_ACCEPTED);
        call[place] = limit + 1;
        same("price above its limit", number(), KOZEMPIL_REFUSED_PRICE_LIST);
    }

    /* 5, 6, 7 */
    ask_to_open();
    call[KOZEMPIL_CALL_DEMAND_LIMIT] = KOZEMPIL_BUSINESS_LIMIT + 1;
    call[KOZEMPIL_CALL_NAMEPLATE] = KOZEMPIL_HOME_LIMIT;
    same("largest home", number(), KOZEMPIL_ACCEPTED);
    call[KOZEMPIL_CALL_NAMEPLATE] = KOZEMPIL_HOME_LIMIT + 1;
    same("home above its limit", number(), KOZEMPIL_REFUSED_CAPACITY);
    call[KOZEMPIL_CALL_CLASS] = KOZEMPIL_CLASS_BUSINESS;
    call[KOZEMPIL_CALL_NAMEPLATE] = KOZEMPIL_BUSINESS_LIMIT;
    same("largest business", number(), KOZEMPIL_ACCEPTED);
    call[KOZEMPIL_CALL_RIDER] = KOZEMPIL_RIDER_BRIDGE;
    same("bridge for a business", number(), KOZEMPIL_REFUSED_NO_BRIDGE);
    call[KOZEMPIL_CALL_RIDER] = KOZEMPIL_RIDER_BANKED;
    call[KOZEMPIL_CALL_NAMEPLATE] = KOZEMPIL_BUSINESS_LIMIT + 1;
    same("business above its limit", number(), KOZEMPIL_REFUSED_CAPACITY);
    ask_to_open();
    call[KOZEMPIL_CALL_FIRST_MONTH] = KOZEMPIL_LAST_MONTH;
    same("opened in the last month", number(), KOZEMPIL_ACCEPTED);
    call[KOZEMPIL_CALL_FIRST_MONTH] = KOZEMPIL_LAST_MONTH + 1;
    same("opened after it", number(), KOZEMPIL_REFUSED_MONTH);
    open_home();
    ask_to_bill(JANUARY + 1, 0);
    same("another month", number(), KOZEMPIL_REFUSED_MONTH);

    /* 8: the length of each month of 2005 to 2009, in which the clocks begin to change. 9, 10, 11 */
    same("January", kozempil_register_length(JANUARY), KOZEMPIL_MOST_READINGS);
    same("March 2006", kozempil_register_length(12 * 6 + 2), 2976);
    same("March 2007", kozempil_register_length(12 * 7 + 2), 2972);
    same("November 2007", kozempil_register_length(12 * 7 + 10), 2884);
    open_home();
    for (uint32_t month = 60; month < 120; month++) {
        uint64_t length = kozempil_register_length(month);
        account[KOZEMPIL_ACCOUNT_NEXT] = month;
        ask_to_bill(month, 0);
        same("register of the month's length", number_with(length), KOZEMPIL_ACCEPTED);
        same("register one short", number_with(length - 1), KOZEMPIL_REFUSED_REGISTER_LENGTH);
        same("register one long", number_with(length + 1), KOZEMPIL_REFUSED_REGISTER_LENGTH);
    }
    account[KOZEMPIL_ACCOUNT_NEXT] = 12 * 7 + 2;
    ask_to_bill(12 * 7 + 2, 0);
    same("March 2007 without its change", number_with(2976), KOZEMPIL_REFUSED_REGISTER_LENGTH);
    account[KOZEMPIL_ACCOUNT_NEXT] = 12 * 7 + 10;
    ask_to_bill(12 * 7 + 10, 0);
    same("November 2007 without its change", number_with(2880), KOZEMPIL_REFUSED_REGISTER_LENGTH);
    open_home();
    ask_to_bill(JANUARY, (UINT64_C(1) << KOZEMPIL_MOST_CRITICAL_DAYS) - 1);
    same("as many critical days as can be", number(), KOZEMPIL_ACCEPTED);
    ask_to_bill(JANUARY, (UINT64_C(1) << (KOZEMPIL_MOST_CRITICAL_DAYS + 1)) - 1);
    same("one more", number(), KOZEMPIL_REFUSED_CRITICAL_DAYS);
    ask_to_bill(JANUARY, 0);
    delivered[LENGTH - 1] = KOZEMPIL_READING_LIMIT;
    same("largest reading", number(), KOZEMPIL_ACCEPTED);
    delivered[LENGTH - 1] = KOZEMPIL_READING_LIMIT + 1;
    same("reading above it", number(), KOZEMPIL_REFUSED_READING);
    account[KOZEMPIL_ACCOUNT_NEXT] = KOZEMPIL_LAST_MONTH + 1;
    same("after the last month", number(), KOZEMPIL_REFUSED_BOOK_FULL);
}

/* January's last reading is lost, off-peak as the one before it: it counts as 700 Wh, so 1,400 Wh were delivered off-peak. 13 comes behind 10. */
static void lost_readings(void)
{
    open_home();
    ask_to_bill(JANUARY, 0);
    delivered[LENGTH - 2] = 700;
    delivered[LENGTH - 1] = KOZEMPIL_LOST;
    same("last reading lost", number(), KOZEMPIL_ACCEPTED);
    same("delivered with it", answer[KOZEMPIL_ANSWER_DELIVERED + KOZEMPIL_PERIOD_OFF_PEAK], 1400);
    same("still lost", delivered[LENGTH - 1], KOZEMPIL_LOST);
    delivered[0] = KOZEMPIL_LOST;
    same("first delivered reading lost", number(), KOZEMPIL_REFUSED_FIRST_READING_LOST);
    delivered[LENGTH - 1] = KOZEMPIL_LOST - 1;
    same("and one above the limit", number(), KOZEMPIL_REFUSED_READING);
    open_home();
    ask_to_bill(JANUARY, 0);
    received[0] = KOZEMPIL_LOST;
    same("first received reading lost", number(), KOZEMPIL_REFUSED_FIRST_READING_LOST);
}

/* A list: an opening, a billing that takes its readings from the registers, and a record that is no call. */
static uint64_t list[4 * KOZEMPIL_CALL_LENGTH];
static uint64_t answers[4 * KOZEMPIL_ANSWER_LENGTH];

static void lists_and_counts(void)
{
    uint64_t *billing = list + KOZEMPIL_CALL_LENGTH;
    struct kozempil_counts counts;

    ask_to_open();
    call[KOZEMPIL_CALL_ENERGY_PRICE + KOZEMPIL_PERIOD_CRITICAL] = 20000;
    call[KOZEMPIL_CALL_ENERGY_PRICE + KOZEMPIL_PERIOD_ON_PEAK] = 20000;
    call[KOZEMPIL_CALL_ENERGY_PRICE + KOZEMPIL_PERIOD_OFF_PEAK] = 20000;
    memcpy(list, call, sizeof call);
    billing[KOZEMPIL_CALL_KIND] = KOZEMPIL_KIND_BILLING;
    billing[KOZEMPIL_CALL_DELIVERED_COUNT] = LENGTH;
    billing[KOZEMPIL_CALL_RECEIVED_COUNT] = LENGTH;
    list[2 * KOZEMPIL_CALL_LENGTH] = KOZEMPIL_KIND_CLOSING + 1;
    delivered[OFF] = 5000; /* at 20,000: 100 cents */

    counts = kozempil_run(list, 3 * KOZEMPIL_CALL_LENGTH, delivered, LENGTH, received, LENGTH, answers, sizeof answers / 8,
                          after, KOZEMPIL_ACCOUNT_LENGTH);
    same("answered", counts.answered, 2);
    same("written", counts.written, 2);
    same("billed in a list", answers[KOZEMPIL_ANSWER_LENGTH + KOZEMPIL_ANSWER_ENERGY], 100);
    same("next month", after[KOZEMPIL_ACCOUNT_NEXT], 1);
    counts = kozempil_run(list, 2 * KOZEMPIL_CALL_LENGTH - 1, delivered, LENGTH, received, LENGTH, NONE, after, KOZEMPIL_ACCOUNT_LENGTH);
    same("answered without the last", counts.answered, 1);
    same("none written", counts.written, 0);
    counts = kozempil_run(list, 2 * KOZEMPIL_CALL_LENGTH, delivered, LENGTH, received, LENGTH, answers, 2 * KOZEMPIL_ANSWER_LENGTH - 1, NONE);
    same("answered with a short buffer", counts.answered, 2);
    same("one written", counts.written, 1);
    billing[KOZEMPIL_CALL_DELIVERED_COUNT] = LENGTH - 1;
    kozempil_run(list, 2 * KOZEMPIL_CALL_LENGTH, delivered, LENGTH, received, LENGTH, answers, sizeof answers / 8, NONE);
    same("one delivered reading fewer", answers[KOZEMPIL_ANSWER_LENGTH], KOZEMPIL_REFUSED_REGISTER_LENGTH);
    billing[KOZEMPIL_CALL_DELIVERED_COUNT] = LENGTH;
    billing[KOZEMPIL_CALL_RECEIVED_COUNT] = LENGTH - 1;
    kozempil_run(list, 2 * KOZEMPIL_CALL_LENGTH, delivered, LENGTH, received, LENGTH, answers, sizeof answers / 8, NONE);
    same("one received reading fewer", answers[KOZEMPIL_ANSWER_LENGTH], KOZEMPIL_REFUSED_REGISTER_LENGTH);

    /* A first billing takes one delivered reading and no received one, and is refused; the second takes what follows. */
    memcpy(list + 2 * KOZEMPIL_CALL_LENGTH, billing, KOZEMPIL_CALL_LENGTH * sizeof *list);
    billing[KOZEMPIL_CALL_DELIVERED_COUNT] = 1;
    billing[KOZEMPIL_CALL_RECEIVED_COUNT] = 0;
    list[2 * KOZEMPIL_CALL_LENGTH + KOZEMPIL_CALL_RECEIVED_COUNT] = LENGTH;
    counts = kozempil_run(list, 3 * KOZEMPIL_CALL_LENGTH, delivered, LENGTH + 1, received, LENGTH, answers, sizeof answers / 8, NONE);
    same("all answered", counts.answered, 3);
    same("one delivered reading", answers[KOZEMPIL_ANSWER_LENGTH], KOZEMPIL_REFUSED_REGISTER_LENGTH);
    same("the readings after it", answers[2 * KOZEMPIL_ANSWER_LENGTH], KOZEMPIL_ACCEPTED);
    billing[KOZEMPIL_CALL_DELIVERED_COUNT] = LENGTH;
    billing[KOZEMPIL_CALL_RECEIVED_COUNT] = LENGTH;
    list[2 * KOZEMPIL_CALL_LENGTH] = KOZEMPIL_KIND_CLOSING + 1;

    counts = kozempil_run(NONE, NONE, NONE, NONE, after, KOZEMPIL_ACCOUNT_LENGTH);
    same("nothing lent, nothing answered", counts.answered + counts.written, 0);
    same("fresh", after[KOZEMPIL_ACCOUNT_STAGE], KOZEMPIL_STAGE_FRESH);
    same("no account, no call", kozempil_call(NONE, NONE, NONE, NONE, NONE, NONE), 0);
}

static void views_and_texts(void)
{
    static const char input[] = "opens=2001-02\nrider=banked\n";
    uint8_t text[16];
    uint64_t part[KOZEMPIL_VIEW_LENGTH + 1];

    clear();
    memset(part, 0xff, sizeof part);
    kozempil_day_view(delivered, LENGTH, received, LENGTH, JANUARY, 3, KOZEMPIL_RECEIVED, part, KOZEMPIL_VIEW_LENGTH + 1);
    same("numbers of a view", (part[KOZEMPIL_VIEW_LENGTH - 1] != UINT64_MAX) + 2 * (part[KOZEMPIL_VIEW_LENGTH] == UINT64_MAX), 3);
    same("start of day 3", part[KOZEMPIL_VIEW_START], 192);
    same("length of day 3", part[KOZEMPIL_VIEW_COUNT], 96);
    kozempil_day_view(delivered, LENGTH, received, LENGTH, JANUARY, 3, KOZEMPIL_DELIVERED, part, KOZEMPIL_VIEW_LENGTH);
    same("length of delivered", part[KOZEMPIL_VIEW_COUNT], 96);
    kozempil_day_view(delivered, LENGTH, received, LENGTH, JANUARY, 3, KOZEMPIL_RECEIVED + 1, part, KOZEMPIL_VIEW_LENGTH);
    same("start in no register", part[KOZEMPIL_VIEW_START], 0);
    same("length in no register", part[KOZEMPIL_VIEW_COUNT], 0);
    kozempil_day_view(delivered, LENGTH, received, LENGTH, JANUARY, 0, KOZEMPIL_RECEIVED, part, KOZEMPIL_VIEW_LENGTH);
    same("length of day 0", part[KOZEMPIL_VIEW_COUNT], 0);
    kozempil_day_view(NONE, NONE, JANUARY, 3, KOZEMPIL_RECEIVED, part, KOZEMPIL_VIEW_LENGTH);
    same("length of no registers", part[KOZEMPIL_VIEW_COUNT], 0);
    kozempil_day_view(NONE, NONE, 0, 0, 0, NONE);

    /* The third line is absent. */
    memset(text, 'x', sizeof text);
    same("length of a statement", kozempil_statement((const uint8_t *)input, sizeof input - 1, text, sizeof text), 7);
    same("statement", (uint64_t)memcmp(text, "line=3\nxxxxxxxxx", sizeof text), 0);
    memset(text, 'x', sizeof text);
    same("length of one that doesn't fit", kozempil_statement((const uint8_t *)input, sizeof input - 1, text, 5), 7);
    same("its front", (uint64_t)memcmp(text, "line=xxxxxxxxxxx", sizeof text), 0);
    same("statement of no input", kozempil_statement(NONE, NONE), 7);
}

/* The same list in several threads at once, each with answers of its own. */
static void *run_often(void *wrong)
{
    uint64_t own[2 * KOZEMPIL_ANSWER_LENGTH];
    for (int i = 0; i < 50; i++) {
        memset(own, 0, sizeof own);
        kozempil_run(list, 2 * KOZEMPIL_CALL_LENGTH, delivered, LENGTH, received, LENGTH, own, sizeof own / 8, NONE);
        *(uint64_t *)wrong += memcmp(own, answers, sizeof own) != 0;
    }
    return NULL;
}

static void threads(void)
{
    pthread_t ids[4];
    uint64_t wrong[4] = {0};

    lists_and_counts();
    kozempil_run(list, 2 * KOZEMPIL_CALL_LENGTH, delivered, LENGTH, received, LENGTH, answers, sizeof answers / 8, NONE);
    for (int i = 0; i < 4; i++)
        pthread_create(&ids[i], NULL, run_often, &wrong[i]);
    for (int i = 0; i < 4; i++) {
        pthread_join(ids[i], NULL);
        same("wrong answers of a thread", wrong[i], 0);
    }
}

int main(void)
{
    same("layout", kozempil_layout(), KOZEMPIL_LAYOUT);
    codes_and_places_of_an_opening();
    rows_of_a_banked_bill();
    lines_of_a_bridge_bill();
    several_nameplates();
    refusals_and_limits();
    lost_readings();
    lists_and_counts();
    views_and_texts();
    threads();
    printf("header: %u numbers compared, %u differ\n", compared, differences);
    return differences != 0;
}
