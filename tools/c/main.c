/*
 * A port from a cold start to power and shed again, another on alternative B whose requests are answered, a table saved and
 * restored, a power TLV read and written, and two class failures, through the C interface. Every answer is compared with the one that
 * document 01 and the requests after it give; a difference is an exit status of 1.
 *
 *     ipaqsuni            the demonstration
 *     ipaqsuni lines      answers the console's lines (lines.c)
 */
#include <inttypes.h>
#include <stdio.h>
#include <string.h>

#include "ipaqsuni.h"
#include "lines.h"

static int differences = 0;

static void is(const char *what, uint64_t got, uint64_t wanted) {
    printf("%s: %" PRIu64 "\n", what, got);
    if (got != wanted) {
        fprintf(stderr, "%s: %" PRIu64 ", and it must be %" PRIu64 "\n", what, got, wanted);
        differences = 1;
    }
}

static void same(const char *what, const void *got, const void *wanted, size_t n) {
    is(what, memcmp(got, wanted, n) == 0, 1);
}

static struct ipaqsuni_table table;

/* V1 4,000 mV, V2 5,900 mV, I1 0, I2 100 uA, detection done: 1,900/100 is valid. */
static const uint8_t detected[IPAQSUNI_SAMPLE] = {0x0f, 0xa0, 0x17, 0x0c, 0, 0, 0, 100, 0, 0, 0, 0, 0, 1};

/* A tick and the masks that must come of it, with so many ports closed. */
static void tick(const char *what, uint32_t supply, const uint8_t *samples, size_t n, uint64_t mask_a, uint64_t mask_b, uint32_t closed) {
    uint64_t a = 77, b = 77;
    uint32_t number = 77;
    printf("%s\n", what);
    is("  tick", ipaqsuni_tick(IPAQSUNI_LENT(&table), samples, n, supply, &a, &b, &number), IPAQSUNI_OK);
    is("  mask a", a, mask_a);
    is("  mask b", b, mask_b);
    is("  closed", number, closed);
    is("  stored supply", table.supply, supply);
}

static void shed(void) {
    static const uint8_t still[IPAQSUNI_SAMPLE] = {0};
    /* C1 10,000 uA, class done: class 1, of 4.0 W. */
    static const uint8_t classified[IPAQSUNI_SAMPLE] = {0, 0, 0, 0, 0, 0, 0, 0, 0x27, 0x10, 0, 0, 0, 2};
    static const uint8_t settled[IPAQSUNI_SAMPLE] = {0, 0, 0, 0, 0, 0, 0, 0, 0, 0, 0, 0, 0, 0x24};
    uint32_t status = 77;

    is("cold start of 1 port", ipaqsuni_cold_start(IPAQSUNI_LENT(&table), 1), IPAQSUNI_OK);
    is("control: enabled, alternative A", ipaqsuni_write_control(IPAQSUNI_LENT(&table), 0, 0x0005), IPAQSUNI_OK);
    tick("DISABLED goes to IDLE", 154, still, IPAQSUNI_SAMPLE, 0, 0, 0);
    tick("IDLE goes to DETECTING", 154, still, IPAQSUNI_SAMPLE, 0, 0, 0);
    tick("a valid signature goes to CLASSIFYING", 154, detected, IPAQSUNI_SAMPLE, 0, 0, 0);
    tick("class 1 goes to POWER_UP: the port is closed", 154, classified, IPAQSUNI_SAMPLE, 1, 0, 1);
    tick("settled goes to POWER_ON", 154, settled, IPAQSUNI_SAMPLE, 1, 0, 1);
    is("request of 39: 7.0 W", ipaqsuni_request(IPAQSUNI_LENT(&table), 0, 39), IPAQSUNI_OVER_CLASS);
    tick("a supply of 3.9 W sheds 4.0 W", 39, settled, IPAQSUNI_SAMPLE, 0, 0, 0);
    /* Latches 12 denied and 11 valid signature, class 1, condition 1, bit 0. */
    is("state", table.state[0], IPAQSUNI_STATE_IDLE);
    is("latches", table.latches[0], IPAQSUNI_LATCH_DENIED | IPAQSUNI_LATCH_VALID);
    is("status", ipaqsuni_read_status(IPAQSUNI_LENT(&table), 0, &status), IPAQSUNI_OK);
    is("  word", status, 0x1813);
    is("status again", ipaqsuni_read_status(IPAQSUNI_LENT(&table), 0, &status), IPAQSUNI_OK);
    is("  word without latches", status, 0x0013);
    is("latches", table.latches[0], 0);
}

/* Which failure of the class it was, by the latches: each is cleared by a status read. */
static void class_failures(void) {
    static const uint8_t still[2 * IPAQSUNI_SAMPLE] = {0};
    uint8_t samples[2 * IPAQSUNI_SAMPLE] = {0};
    uint32_t status = 77;

    is("cold start of 2 ports", ipaqsuni_cold_start(IPAQSUNI_LENT(&table), 2), IPAQSUNI_OK);
    is("control of port 0", ipaqsuni_write_control(IPAQSUNI_LENT(&table), 0, 0x0005), IPAQSUNI_OK);
    is("control of port 1", ipaqsuni_write_control(IPAQSUNI_LENT(&table), 1, 0x0005), IPAQSUNI_OK);
    tick("both go to IDLE", 600, still, sizeof still, 0, 0, 0);
    tick("both go to DETECTING", 600, still, sizeof still, 0, 0, 0);
    memcpy(samples, detected, IPAQSUNI_SAMPLE);
    memcpy(samples + IPAQSUNI_SAMPLE, detected, IPAQSUNI_SAMPLE);
    tick("both go to CLASSIFYING", 600, samples, sizeof samples, 0, 0, 0);
    /* Port 0: C1 45,001 uA, C2 45,000 uA. Port 1: C1 45,000 uA, C2 45,001 uA. Class done. */
    memset(samples, 0, sizeof samples);
    samples[8] = samples[10] = samples[22] = samples[24] = 0xaf;
    samples[9] = samples[25] = 0xc9;
    samples[11] = samples[23] = 0xc8;
    samples[13] = samples[27] = 2;
    tick("a class failure goes to IDLE", 600, samples, sizeof samples, 0, 0, 0);
    is("latches of port 0", table.latches[0], IPAQSUNI_LATCH_CLASS_OVER_CURRENT | IPAQSUNI_LATCH_VALID);
    is("latches of port 1", table.latches[1], IPAQSUNI_LATCH_EVENTS_DISAGREE | IPAQSUNI_LATCH_VALID);
    /* Latch 13 class over current or 14 events disagree, 11 valid signature, condition 1, bit 0. */
    is("status of port 0", ipaqsuni_read_status(IPAQSUNI_LENT(&table), 0, &status), IPAQSUNI_OK);
    is("  word", status, 0x2803);
    is("status of port 1", ipaqsuni_read_status(IPAQSUNI_LENT(&table), 1, &status), IPAQSUNI_OK);
    is("  word", status, 0x4803);
    is("latches of port 0", table.latches[0], 0);
    is("latches of port 1", table.latches[1], 0);
}

/* Each refusal leaves the table and the places for answers as they were. */
static void refusals(void) {
    struct ipaqsuni_table before = table;
    uint8_t samples[IPAQSUNI_SAMPLE] = {0};
    uint64_t a = 77, b = 77;
    uint32_t n = 77, status = 77;

    is("cold start of 49 ports", ipaqsuni_cold_start(IPAQSUNI_LENT(&table), IPAQSUNI_PORTS + 1), IPAQSUNI_NO_SUCH_PORT);
    is("cold start in 727 cells", ipaqsuni_cold_start((uint16_t *)&table, IPAQSUNI_CELLS - 1, 1), IPAQSUNI_ILL_MADE);
    is("control of port 1", ipaqsuni_write_control(IPAQSUNI_LENT(&table), 1, 0x0005), IPAQSUNI_NO_SUCH_PORT);
    is("control with enable 11", ipaqsuni_write_control(IPAQSUNI_LENT(&table), 0, 0x0007), IPAQSUNI_RESERVED);
    is("control to alternative B", ipaqsuni_write_control(IPAQSUNI_LENT(&table), 0, 0x0009), IPAQSUNI_WRONG_STATE);
    is("status of port 1", ipaqsuni_read_status(IPAQSUNI_LENT(&table), 1, &status), IPAQSUNI_NO_SUCH_PORT);
    is("request of 0", ipaqsuni_request(IPAQSUNI_LENT(&table), 0, 0), IPAQSUNI_BAD_VALUE);
    is("request of 1,000", ipaqsuni_request(IPAQSUNI_LENT(&table), 0, IPAQSUNI_HIGHEST_VALUE + 1), IPAQSUNI_BAD_VALUE);
    is("request in IDLE", ipaqsuni_request(IPAQSUNI_LENT(&table), 0, 1), IPAQSUNI_WRONG_STATE);
    is("request of 999 in IDLE", ipaqsuni_request(IPAQSUNI_LENT(&table), 0, 999), IPAQSUNI_WRONG_STATE);
    is("tick on 13 bytes", ipaqsuni_tick(IPAQSUNI_LENT(&table), samples, sizeof samples - 1, 154, &a, &b, &n), IPAQSUNI_BAD_LENGTH);
    is("tick at 60,001", ipaqsuni_tick(IPAQSUNI_LENT(&table), samples, sizeof samples, 60001, &a, &b, &n), IPAQSUNI_SUPPLY_TOO_LARGE);
    samples[IPAQSUNI_SAMPLE - 1] = 0x40;
    is("tick with flag 6", ipaqsuni_tick(IPAQSUNI_LENT(&table), samples, sizeof samples, 154, &a, &b, &n), IPAQSUNI_RESERVED);
    is("tick on 727 cells", ipaqsuni_tick((uint16_t *)&table, IPAQSUNI_CELLS - 1, samples, sizeof samples, 154, &a, &b, &n),
       IPAQSUNI_ILL_MADE);
    same("the table is as it was", &table, &before, sizeof table);
    table.state[0] = before.state[0] = 10;
    is("tick of a state 10", ipaqsuni_tick(IPAQSUNI_LENT(&table), samples, sizeof samples, 154, &a, &b, &n), IPAQSUNI_ILL_MADE);
    is("status in a state 10", ipaqsuni_read_status(IPAQSUNI_LENT(&table), 0, &status), IPAQSUNI_ILL_MADE);
    same("the table is as it was", &table, &before, sizeof table);
    is("the places for answers are as they were", a == 77 && b == 77 && n == 77 && status == 77, 1);
}

/* A tick of three ports, the last of which has the sample; it is on alternative B. */
static void tick_last(const char *what, uint32_t supply, const uint8_t sample[IPAQSUNI_SAMPLE], uint32_t closed) {
    uint8_t samples[3 * IPAQSUNI_SAMPLE] = {0};
    memcpy(samples + 2 * IPAQSUNI_SAMPLE, sample, IPAQSUNI_SAMPLE);
    tick(what, supply, samples, sizeof samples, 0, closed << 2, closed);
}

static void requests(void) {
    static const uint8_t still[IPAQSUNI_SAMPLE] = {0};
    /* C1 and C2 40,000 uA, class done: class 4, of 30.0 W. */
    static const uint8_t classified[IPAQSUNI_SAMPLE] = {0, 0, 0, 0, 0, 0, 0, 0, 0x9c, 0x40, 0x9c, 0x40, 0, 2};
    static const uint8_t settled[IPAQSUNI_SAMPLE] = {0, 0, 0, 0, 0, 0, 0, 0, 0, 0, 0, 0, 0, 0x24};
    uint32_t status = 77;

    is("cold start of 3 ports", ipaqsuni_cold_start(IPAQSUNI_LENT(&table), 3), IPAQSUNI_OK);
    is("control of port 2: enabled, alternative B", ipaqsuni_write_control(IPAQSUNI_LENT(&table), 2, 0x0009), IPAQSUNI_OK);
    tick_last("port 2 goes to IDLE", 300, still, 0);
    tick_last("port 2 goes to DETECTING", 300, still, 0);
    tick_last("port 2 goes to CLASSIFYING", 300, detected, 0);
    tick_last("class 4 goes to POWER_UP", 300, classified, 1);
    is("request in POWER_UP", ipaqsuni_request(IPAQSUNI_LENT(&table), 2, 38), IPAQSUNI_WRONG_STATE);
    tick_last("settled goes to POWER_ON", 300, settled, 1);
    is("request of 256: over every class", ipaqsuni_request(IPAQSUNI_LENT(&table), 2, 256), IPAQSUNI_OVER_CLASS);
    is("request of 999: over every class", ipaqsuni_request(IPAQSUNI_LENT(&table), 2, IPAQSUNI_HIGHEST_VALUE), IPAQSUNI_OVER_CLASS);
    is("request of 38: 4.0 W", ipaqsuni_request(IPAQSUNI_LENT(&table), 2, 38), IPAQSUNI_OK);
    tick_last("a supply of 4.0 W keeps it", 40, settled, 1);
    tick_last("a supply of 29.9 W keeps it", 299, settled, 1);
    is("request of 130: 30.0 W", ipaqsuni_request(IPAQSUNI_LENT(&table), 2, 130), IPAQSUNI_OVER_SUPPLY);
    is("request of 129: 15.4 W", ipaqsuni_request(IPAQSUNI_LENT(&table), 2, 129), IPAQSUNI_OK);
    /* Latch 11 valid signature, class 4, condition 2, bit 0. */
    is("status of port 2", ipaqsuni_read_status(IPAQSUNI_LENT(&table), 2, &status), IPAQSUNI_OK);
    is("  word", status, 0x0845);
    tick_last("a supply of 15.3 W sheds it", 153, settled, 0);
    /* Latch 12 denied, class 4, condition 1, bit 0. */
    is("status of port 2", ipaqsuni_read_status(IPAQSUNI_LENT(&table), 2, &status), IPAQSUNI_OK);
    is("  word", status, 0x1043);
}

/* The table that was left, through its image, and past the count whatever stands there. */
static void images(void) {
    static uint8_t image[IPAQSUNI_IMAGE], blank[IPAQSUNI_IMAGE];
    static struct ipaqsuni_table restored;
    struct ipaqsuni_table before = table;
    uint32_t status = 77;

    memset(image, 0xa5, sizeof image);
    memset(blank, 0xa5, sizeof blank);
    is("save in 1,013 bytes", ipaqsuni_save(IPAQSUNI_LENT(&table), image, sizeof image - 1), IPAQSUNI_BAD_LENGTH);
    is("save of 727 cells", ipaqsuni_save((uint16_t *)&table, IPAQSUNI_CELLS - 1, image, sizeof image), IPAQSUNI_ILL_MADE);
    table.state[47] = 10;
    is("save of a state 10 past the count", ipaqsuni_save(IPAQSUNI_LENT(&table), image, sizeof image), IPAQSUNI_ILL_MADE);
    same("the image is as it was", image, blank, sizeof image);
    is("status, beside that state", ipaqsuni_read_status(IPAQSUNI_LENT(&table), 2, &status), IPAQSUNI_OK);
    is("  word", status, 0x0043);
    is("the state past the count", table.state[47], 10);
    table.state[47] = before.state[47];
    same("the table is as it was", &table, &before, sizeof table);
    is("save", ipaqsuni_save(IPAQSUNI_LENT(&table), image, sizeof image), IPAQSUNI_OK);
    is("  count", image[1], 3);
    /* 6 bytes of head and 21 a port; the control word is a port's bytes 1 and 2. */
    is("  control of port 2", image[6 + 2 * 21 + 2], 0x0009);
    memset(&restored, 0xa5, sizeof restored);
    is("restore in 727 cells", ipaqsuni_restore((uint16_t *)&restored, IPAQSUNI_CELLS - 1, image, sizeof image),
       IPAQSUNI_ILL_MADE);
    is("restore of 1,013 bytes", ipaqsuni_restore(IPAQSUNI_LENT(&restored), image, sizeof image - 1), IPAQSUNI_ILL_MADE);
    image[6] = 10;
    is("restore of a state 10", ipaqsuni_restore(IPAQSUNI_LENT(&restored), image, sizeof image), IPAQSUNI_ILL_MADE);
    is("the cells are as they were", restored.count == 0xa5a5 && restored.state[0] == 0xa5a5 && restored.reserved[2][47] == 0xa5a5, 1);
    image[6] = IPAQSUNI_STATE_DISABLED;
    is("restore", ipaqsuni_restore(IPAQSUNI_LENT(&restored), image, sizeof image), IPAQSUNI_OK);
    same("  the same table", &restored, &table, sizeof table);
}

static void frames(void) {
    static const uint8_t pdu[] = {0x02, 0x07, 0x04, 0x00, 0x11, 0x22, 0x33, 0x44, 0x55, 0xfe, 0x0c, 0x00, 0x12,
                                  0x0f, 0x02, 0x00, 0x01, 0x05, 0x52, 0x00, 0xff, 0x00, 0x82, 0x00, 0x00};
    static const uint8_t blank[IPAQSUNI_LONGEST_PDU + 1] = {0};
    static const uint32_t wanted[IPAQSUNI_FIELDS] = {12, 0, 1, 5, 1, 1, 2, 255, 130};
    static const char *names[IPAQSUNI_FIELDS] = {"  form",   "  support",  "  pair",      "  class",    "  type",
                                                 "  source", "  priority", "  requested", "  allocated"};
    uint8_t room[IPAQSUNI_LONGEST_TLV + 2], twice[2 * IPAQSUNI_LONGEST_TLV];
    uint32_t fields[IPAQSUNI_FIELDS] = {0};
    uint64_t offset = 77, length = 77, written = 77;

    is("find the power TLV", ipaqsuni_find_power_tlv(pdu, sizeof pdu, &offset, &length), IPAQSUNI_OK);
    is("  offset", offset, 9);
    is("  length", length, IPAQSUNI_LONGEST_TLV);
    is("read it", ipaqsuni_read_power_tlv(pdu + 9, IPAQSUNI_LONGEST_TLV, fields), IPAQSUNI_OK);
    for (int i = 0; i < IPAQSUNI_FIELDS; i++)
        is(names[i], fields[i], wanted[i]);
    memset(room, 0xa5, sizeof room);
    is("write it in 13 bytes", ipaqsuni_write_power_tlv(fields, room, IPAQSUNI_LONGEST_TLV - 1, &written), IPAQSUNI_BAD_LENGTH);
    is("  the room is as it was", room[0], 0xa5);
    is("write it", ipaqsuni_write_power_tlv(fields, room, sizeof room, &written), IPAQSUNI_OK);
    is("  written", written, IPAQSUNI_LONGEST_TLV);
    same("  the same bytes", room, pdu + 9, IPAQSUNI_LONGEST_TLV);
    is("  the room past it", room[IPAQSUNI_LONGEST_TLV], 0xa5);
    fields[IPAQSUNI_FORM] = 8;
    is("write form 8", ipaqsuni_write_power_tlv(fields, room, sizeof room, &written), IPAQSUNI_RESERVED);
    fields[IPAQSUNI_FORM] = 7;
    is("write form 7", ipaqsuni_write_power_tlv(fields, room, sizeof room, &written), IPAQSUNI_OK);
    is("  written", written, 9);
    is("read form 7", ipaqsuni_read_power_tlv(room, 9, fields), IPAQSUNI_OK);
    is("  form", fields[IPAQSUNI_FORM], 7);
    is("  requested", fields[IPAQSUNI_REQUESTED], 0);
    is("read it cut", ipaqsuni_read_power_tlv(room, 8, fields), IPAQSUNI_CUT);
    memcpy(twice, pdu + 9, IPAQSUNI_LONGEST_TLV);
    memcpy(twice + IPAQSUNI_LONGEST_TLV, pdu + 9, IPAQSUNI_LONGEST_TLV);
    is("read it twice", ipaqsuni_read_power_tlv(twice, sizeof twice, fields), IPAQSUNI_NOT_ONE_TLV);
    is("find it twice", ipaqsuni_find_power_tlv(twice, sizeof twice, &offset, &length), IPAQSUNI_SEVERAL_TLVS);
    is("find in an empty PDU", ipaqsuni_find_power_tlv(pdu, 0, &offset, &length), IPAQSUNI_NO_TLV);
    is("find in 1,500 bytes", ipaqsuni_find_power_tlv(blank, sizeof blank - 1, &offset, &length), IPAQSUNI_NO_TLV);
    is("find in 1,501 bytes", ipaqsuni_find_power_tlv(blank, sizeof blank, &offset, &length), IPAQSUNI_BAD_LENGTH);
}

/* Both ends of a TLV's values are written and read back; one past the end is refused, and nothing is written or read. */
static void values(void) {
    uint32_t fields[IPAQSUNI_FIELDS] = {12, 7, 1, 5, 1, 1, 2, 0, IPAQSUNI_HIGHEST_VALUE}, back[IPAQSUNI_FIELDS] = {0};
    uint8_t room[IPAQSUNI_LONGEST_TLV] = {0}, before[IPAQSUNI_LONGEST_TLV];
    uint64_t written = 77;

    is("write requested 0, allocated 999", ipaqsuni_write_power_tlv(fields, room, sizeof room, &written), IPAQSUNI_OK);
    is("read it back", ipaqsuni_read_power_tlv(room, sizeof room, back), IPAQSUNI_OK);
    same("  the same fields", back, fields, sizeof fields);
    memcpy(before, room, sizeof room);
    fields[IPAQSUNI_REQUESTED] = IPAQSUNI_HIGHEST_VALUE + 1;
    is("write requested 1,000", ipaqsuni_write_power_tlv(fields, room, sizeof room, &written), IPAQSUNI_BAD_VALUE);
    same("  the room is as it was", room, before, sizeof room);
    fields[IPAQSUNI_REQUESTED] = 0;
    room[13]++;
    is("read allocated 1,000", ipaqsuni_read_power_tlv(room, sizeof room, back), IPAQSUNI_BAD_VALUE);
    same("  the fields are as they were", back, fields, sizeof fields);
}

int main(int argc, char **argv) {
    if (argc == 2 && strcmp(argv[1], "lines") == 0)
        return lines();
    shed();
    refusals();
    requests();
    images();
    frames();
    values();
    class_failures();
    return differences;
}
