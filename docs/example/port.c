/*
 * One port of a board from a cold start to power, through ipaqsuni.h alone. A board would read its samples from the port's
 * analogue part each millisecond, and set its switches by the masks; here the samples of a device of class 1 are given.
 *
 * The table is ours: each call is lent it and changes it in place, and between two calls we may look at every port in it. Last, its
 * image is saved, as a board would before it restarts, and restored.
 */
#include <inttypes.h>
#include <stdio.h>

#include <ipaqsuni.h>

#define SUPPLY 154 /* tenths of a watt */

static struct ipaqsuni_table table;
static uint8_t image[IPAQSUNI_IMAGE];

static const uint8_t samples[][IPAQSUNI_SAMPLE] = {
    {0}, /* DISABLED goes to IDLE */
    {0}, /* IDLE goes to DETECTING */
    /* V1 4,000 mV, V2 5,900 mV, I2 100 uA, detection done: a valid signature */
    {0x0f, 0xa0, 0x17, 0x0c, 0, 0, 0, 100, 0, 0, 0, 0, 0, 1},
    /* C1 10,000 uA, class done: class 1, of 4.0 W */
    {0, 0, 0, 0, 0, 0, 0, 0, 0x27, 0x10, 0, 0, 0, 2},
};

static const char *name(uint16_t state) {
    switch (state) {
    case IPAQSUNI_STATE_IDLE:
        return "idle";
    case IPAQSUNI_STATE_DETECTING:
        return "detecting";
    case IPAQSUNI_STATE_CLASSIFYING:
        return "classifying";
    case IPAQSUNI_STATE_POWER_UP:
        return "powering up";
    default:
        return "in another state";
    }
}

int main(void) {
    uint64_t mask_a = 0, mask_b = 0;
    uint32_t closed = 0, status = 0;

    printf("ipaqsuni %s\n", IPAQSUNI_VERSION);
    if (ipaqsuni_cold_start(IPAQSUNI_LENT(&table), 1) != IPAQSUNI_OK)
        return 1;
    /* enabled, on alternative A */
    if (ipaqsuni_write_control(IPAQSUNI_LENT(&table), 0, 0x0005) != IPAQSUNI_OK)
        return 1;
    for (size_t i = 0; i < sizeof samples / sizeof samples[0] && closed == 0; i++) {
        if (ipaqsuni_tick(IPAQSUNI_LENT(&table), samples[i], sizeof samples[i], SUPPLY, &mask_a, &mask_b, &closed) != IPAQSUNI_OK)
            return 1;
        printf("tick: %" PRIu32 " closed, masks %" PRIx64 " and %" PRIx64 ", port 0 is %s\n", closed, mask_a, mask_b,
               name(table.state[0]));
    }
    printf("port 0: class %u, %u tenths of a watt\n", table.power_class[0], table.demand[0]);
    if (ipaqsuni_read_status(IPAQSUNI_LENT(&table), 0, &status) != IPAQSUNI_OK)
        return 1;
    printf("status of port 0: 0x%04" PRIx32 "\n", status);
    switch (ipaqsuni_read_status(IPAQSUNI_LENT(&table), 1, &status)) {
    case IPAQSUNI_OK:
        printf("status of port 1: 0x%04" PRIx32 "\n", status);
        break;
    case IPAQSUNI_NO_SUCH_PORT:
        printf("port 1: no such port\n");
        break;
    default:
        return 1;
    }
    if (ipaqsuni_save(IPAQSUNI_LENT(&table), image, sizeof image) != IPAQSUNI_OK)
        return 1;
    table = (struct ipaqsuni_table){0};
    if (ipaqsuni_restore(IPAQSUNI_LENT(&table), image, sizeof image) != IPAQSUNI_OK)
        return 1;
    printf("restored: %u port, and port 0 is %s\n", table.count, name(table.state[0]));
    return 0;
}
