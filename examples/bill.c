/* Opens an account and bills a month, through include/kozempil.h.
 *
 *     ./install FOLDER
 *     export PKG_CONFIG_PATH=FOLDER/lib/pkgconfig
 *     cc examples/bill.c $(pkg-config --cflags --libs kozempil) -o bill && ./bill
 *
 * The home has 3,000 W on its barn and 2,000 W on its house. It takes 250 Wh in each of the 2,976 quarters of January 2000, 744 kWh, at 0.20 dollars
 * per kWh in every period: 14,880 cents.
 * With the basic amount of 1,400 cents, 16,280 cents are due. The second list asks for February while January is next: refusal 7.
 */
#include "kozempil.h"

#include <inttypes.h>
#include <stdio.h>

enum { JANUARY_2000, FEBRUARY_2000, CALLS = 2 };

static uint32_t delivered[KOZEMPIL_MOST_READINGS];
static uint32_t received[KOZEMPIL_MOST_READINGS];

/* Opens a banked home, and bills a month with the registers of January. */
static void bill(uint64_t month)
{
    const uint64_t readings = kozempil_register_length(JANUARY_2000);
    const uint64_t calls[CALLS][KOZEMPIL_CALL_LENGTH] = {
        {
            [KOZEMPIL_CALL_KIND] = KOZEMPIL_KIND_OPENING,
            [KOZEMPIL_CALL_RIDER] = KOZEMPIL_RIDER_BANKED,
            [KOZEMPIL_CALL_CLASS] = KOZEMPIL_CLASS_HOME,
            [KOZEMPIL_CALL_NAMEPLATE_COUNT] = 2,
            [KOZEMPIL_CALL_NAMEPLATE] = 3000,
            [KOZEMPIL_CALL_NAMEPLATE + 1] = 2000,
            [KOZEMPIL_CALL_DEMAND_LIMIT] = 5000,
            [KOZEMPIL_CALL_ENERGY_PRICE + KOZEMPIL_PERIOD_CRITICAL] = 20000,
            [KOZEMPIL_CALL_ENERGY_PRICE + KOZEMPIL_PERIOD_ON_PEAK] = 20000,
            [KOZEMPIL_CALL_ENERGY_PRICE + KOZEMPIL_PERIOD_OFF_PEAK] = 20000,
            [KOZEMPIL_CALL_ENERGY_PRICE + KOZEMPIL_PERIOD_DISCOUNT] = 20000,
            [KOZEMPIL_CALL_BASIC] = 1400,
            [KOZEMPIL_CALL_FIRST_MONTH] = JANUARY_2000,
        },
        {
            [KOZEMPIL_CALL_KIND] = KOZEMPIL_KIND_BILLING,
            [KOZEMPIL_CALL_MONTH] = month,
            [KOZEMPIL_CALL_DELIVERED_COUNT] = readings,
            [KOZEMPIL_CALL_RECEIVED_COUNT] = readings,
        },
    };
    uint64_t answers[CALLS][KOZEMPIL_ANSWER_LENGTH];
    uint64_t account[KOZEMPIL_ACCOUNT_LENGTH];

    struct kozempil_counts counts = kozempil_run(
        calls[0], CALLS * KOZEMPIL_CALL_LENGTH, delivered, readings, received, readings,
        answers[0], CALLS * KOZEMPIL_ANSWER_LENGTH, account, KOZEMPIL_ACCOUNT_LENGTH);
    if (counts.answered < CALLS) {
        printf("call %" PRIu64 " can't be read\n", counts.answered);
        return;
    }
    printf("opening %" PRIu64 ", billing %" PRIu64 ", due %" PRIu64 " cents\n", answers[0][KOZEMPIL_ANSWER_NUMBER],
           answers[1][KOZEMPIL_ANSWER_NUMBER], answers[1][KOZEMPIL_ANSWER_DUE]);
}

int main(void)
{
    for (size_t i = 0; i < KOZEMPIL_MOST_READINGS; i++)
        delivered[i] = 250;
    bill(JANUARY_2000);
    bill(FEBRUARY_2000);
    return 0;
}
