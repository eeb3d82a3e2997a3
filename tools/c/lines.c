/*
 * The console's line language over the C interface. The rules are those at the top of tools/reference/src/lines.rs, with any
 * number of digits in a number (rule 5). `signature` and `class` have no function in C and are answered by `-`.
 *
 * A number past 32 bits goes into a call as 4294967295: as a port, a port count, a control word, a request, a supply figure, a code
 * or a power value it is then refused as the number itself is.
 *
 * The held table is so many cells at the front of a room for 1,024. Every call is lent these, and the cells past them must stay as
 * they were, whatever it answers. After each refusal everything that was lent is compared with what it was; a difference ends the
 * program with status 1. So does a written TLV of another length than its form's, which no answer shows.
 */
#include "lines.h"

#include <inttypes.h>
#include <stdio.h>
#include <stdlib.h>
#include <string.h>

#include "ipaqsuni.h"

#define LONGEST_LINE 8192
#define LONGEST_ROOM 2048
#define MOST_WORDS 11
#define MOST_CELLS 1024
#define MARK 0x5a5a5a5a5a5a5a5aU

struct word {
    const uint8_t *at;
    size_t n;
};

static uint16_t cells[MOST_CELLS], before[MOST_CELLS];
static size_t held = IPAQSUNI_CELLS;
static uint8_t data[LONGEST_LINE / 2];
static uint8_t room[LONGEST_ROOM];
static struct word words[MOST_WORDS];
static size_t count;

static void wrote(const char *what) {
    fprintf(stderr, "a refusal wrote %s\n", what);
    exit(1);
}

/* Rule 5, with any number of digits. */
static int number(struct word w, uint64_t *value) {
    uint64_t v = 0;
    for (size_t i = 0; i < w.n; i++) {
        unsigned digit = w.at[i] - (unsigned)'0';
        if (digit > 9 || v > UINT64_MAX / 10 || (v == UINT64_MAX / 10 && digit > UINT64_MAX % 10))
            return 0;
        v = 10 * v + digit;
    }
    *value = v;
    return w.n > 0;
}

static uint32_t narrow(uint64_t value) { return value > UINT32_MAX ? UINT32_MAX : (uint32_t)value; }

/* The line is a command and so many numbers. */
static int numbers(size_t n, uint64_t *values) {
    if (count != n + 1)
        return 0;
    for (size_t i = 0; i < n; i++)
        if (!number(words[i + 1], &values[i]))
            return 0;
    return 1;
}

static int digit(uint8_t byte) {
    if (byte >= '0' && byte <= '9')
        return byte - '0';
    if (byte >= 'a' && byte <= 'f')
        return byte - 'a' + 10;
    if (byte >= 'A' && byte <= 'F')
        return byte - 'A' + 10;
    return -1;
}

/* Rule 6: the bytes go to `data`. */
static int hex(struct word w, size_t *n) {
    *n = 0;
    if (w.n == 1 && w.at[0] == '-')
        return 1;
    if (w.n == 0 || w.n % 2 != 0)
        return 0;
    for (size_t i = 0; i < w.n; i += 2) {
        int high = digit(w.at[i]), low = digit(w.at[i + 1]);
        if (high < 0 || low < 0)
            return 0;
        data[(*n)++] = (uint8_t)(16 * high + low);
    }
    return 1;
}

static void show(const uint8_t *bytes, size_t n) {
    if (n == 0)
        printf("-");
    for (size_t i = 0; i < n; i++)
        printf("%02x", bytes[i]);
    printf("\n");
}

/* The cells from the first to the last of them are what they were before the call. */
static int untouched(size_t first) { return memcmp(cells + first, before + first, sizeof cells - first * sizeof *cells) == 0; }

static void refused(uint32_t answer) {
    if (!untouched(0))
        wrote("the table");
    printf("refused %" PRIu32 "\n", answer);
}

static void answered(uint32_t answer) {
    if (answer != IPAQSUNI_OK)
        refused(answer);
    else
        printf("ok\n");
}

/* "the held table becomes its 728 cells", however many were held */
static void restore(size_t n) {
    if (ipaqsuni_restore(cells, IPAQSUNI_CELLS, data, n) == IPAQSUNI_OK) {
        held = IPAQSUNI_CELLS;
        printf("ok\n");
        return;
    }
    if (!untouched(0))
        wrote("the table");
    printf("bad image\n");
}

static void dump(void) {
    static uint8_t image[IPAQSUNI_IMAGE];
    memset(image, (uint8_t)MARK, sizeof image);
    uint32_t answer = ipaqsuni_save(cells, held, image, sizeof image);
    if (!untouched(0))
        wrote("the table, or a save did");
    if (answer == IPAQSUNI_OK) {
        show(image, sizeof image);
        return;
    }
    for (size_t i = 0; i < sizeof image; i++)
        if (image[i] != (uint8_t)MARK)
            wrote("the image");
    printf("bad image\n");
}

/* Two bytes a cell. */
static int hold(size_t n) {
    if (n % 2 != 0 || n / 2 > MOST_CELLS)
        return 0;
    held = n / 2;
    for (size_t i = 0; i < held; i++)
        cells[i] = (uint16_t)(data[2 * i] << 8 | data[2 * i + 1]);
    printf("ok\n");
    return 1;
}

static void show_cells(void) {
    static uint8_t bytes[2 * MOST_CELLS];
    for (size_t i = 0; i < held; i++) {
        bytes[2 * i] = (uint8_t)(cells[i] >> 8);
        bytes[2 * i + 1] = (uint8_t)cells[i];
    }
    printf("cells ");
    show(bytes, 2 * held);
}

static void status(uint32_t port) {
    uint32_t word = (uint32_t)MARK;
    uint32_t answer = ipaqsuni_read_status(cells, held, port, &word);
    if (answer == IPAQSUNI_OK) {
        printf("status %" PRIu32 "\n", word);
        return;
    }
    if (word != (uint32_t)MARK)
        wrote("the status");
    refused(answer);
}

static void tick(uint32_t supply, size_t n) {
    uint64_t a = MARK, b = MARK;
    uint32_t closed = (uint32_t)MARK;
    uint32_t answer = ipaqsuni_tick(cells, held, data, n, supply, &a, &b, &closed);
    if (answer == IPAQSUNI_OK) {
        printf("ticked %" PRIu64 " %" PRIu64 " %" PRIu32 "\n", a, b, closed);
        return;
    }
    if (a != MARK || b != MARK || closed != (uint32_t)MARK)
        wrote("a mask or the number");
    refused(answer);
}

static void search(size_t n) {
    uint64_t offset = MARK, length = MARK;
    uint32_t answer = ipaqsuni_find_power_tlv(data, n, &offset, &length);
    if (answer == IPAQSUNI_OK) {
        printf("found %" PRIu64 " %" PRIu64 "\n", offset, length);
        return;
    }
    if (offset != MARK || length != MARK)
        wrote("the offset or the length");
    refused(answer);
}

static void take(size_t n) {
    uint32_t fields[IPAQSUNI_FIELDS];
    for (int i = 0; i < IPAQSUNI_FIELDS; i++)
        fields[i] = (uint32_t)MARK;
    uint32_t answer = ipaqsuni_read_power_tlv(data, n, fields);
    if (answer == IPAQSUNI_OK) {
        printf("fields");
        for (int i = 1; i < (fields[IPAQSUNI_FORM] == 7 ? 4 : IPAQSUNI_FIELDS); i++)
            printf(" %" PRIu32, fields[i]);
        printf("\n");
        return;
    }
    for (int i = 0; i < IPAQSUNI_FIELDS; i++)
        if (fields[i] != (uint32_t)MARK)
            wrote("a field");
    refused(answer);
}

/* "the room is ROOM bytes (at most 2,048) of A5" */
static int put(uint32_t form, size_t n) {
    uint64_t values[IPAQSUNI_FIELDS] = {0}, written = MARK;
    uint32_t fields[IPAQSUNI_FIELDS];
    if (!numbers(n, values) || values[0] > LONGEST_ROOM || values[1] > 255 || values[2] > 255 || values[3] > 255)
        return 0;
    fields[IPAQSUNI_FORM] = form;
    for (int i = 1; i < IPAQSUNI_FIELDS; i++)
        fields[i] = narrow(values[i]);
    size_t size = (size_t)values[0];
    memset(room, 0xa5, sizeof room);
    uint32_t answer = ipaqsuni_write_power_tlv(fields, room, size, &written);
    for (size_t i = answer == IPAQSUNI_OK ? size : 0; i < sizeof room; i++)
        if (room[i] != 0xa5)
            wrote("the room, or a call past it");
    if (answer == IPAQSUNI_OK) {
        if (written != form + 2) {
            fprintf(stderr, "a TLV of form %" PRIu32 " was written in %" PRIu64 " bytes\n", form, written);
            exit(1);
        }
        printf("wrote ");
        show(room, size);
        return 1;
    }
    if (written != MARK)
        wrote("the length written");
    refused(answer);
    return 1;
}

static int is(const char *name) { return words[0].n == strlen(name) && memcmp(words[0].at, name, words[0].n) == 0; }

/* 0: the line breaks a rule. */
static int call(void) {
    uint64_t n[2];
    size_t bytes;
    if (is("cold") && numbers(1, n))
        return answered(ipaqsuni_cold_start(cells, held, narrow(n[0]))), 1;
    if (is("control") && numbers(2, n))
        return answered(ipaqsuni_write_control(cells, held, narrow(n[0]), narrow(n[1]))), 1;
    if (is("request") && numbers(2, n))
        return answered(ipaqsuni_request(cells, held, narrow(n[0]), narrow(n[1]))), 1;
    if (is("status") && numbers(1, n))
        return status(narrow(n[0])), 1;
    if (is("tick") && count == 3 && number(words[1], n) && hex(words[2], &bytes))
        return tick(narrow(n[0]), bytes), 1;
    if (is("table") && count == 2 && hex(words[1], &bytes))
        return restore(bytes), 1;
    if (is("dump") && count == 1)
        return dump(), 1;
    if (is("cells") && count == 2 && hex(words[1], &bytes))
        return hold(bytes);
    if (is("show") && count == 1)
        return show_cells(), 1;
    if (is("search") && count == 2 && hex(words[1], &bytes))
        return search(bytes), 1;
    if (is("read") && count == 2 && hex(words[1], &bytes))
        return take(bytes), 1;
    if (is("write7"))
        return put(7, 4);
    if (is("write12"))
        return put(12, 9);
    if (is("signature") || is("class"))
        return printf("-\n"), 1;
    return 0;
}

/* Rules 2 to 4. */
static void answer(const uint8_t *line, size_t n) {
    int good = n <= LONGEST_LINE;
    size_t from = 0;
    count = 0;
    for (size_t i = 0; good && i <= n; i++) {
        if (i < n && line[i] != ' ')
            continue;
        if (count == MOST_WORDS)
            good = 0;
        else
            words[count++] = (struct word){line + from, i - from};
        from = i + 1;
    }
    size_t lent = held;
    memcpy(before, cells, sizeof cells);
    if (!good || !call())
        printf("bad line\n");
    if (!untouched(held > lent ? held : lent))
        wrote("past the table, or a call did");
}

int lines(void) {
    static uint8_t line[LONGEST_LINE + 1];
    size_t n = 0;
    int byte;
    while ((byte = getchar()) != EOF) {
        if (byte == '\n') {
            answer(line, n);
            n = 0;
            continue;
        }
        if (n < sizeof line)
            line[n++] = (uint8_t)byte;
    }
    if (n > 0)
        answer(line, n);
    return fflush(stdout) == 0 ? 0 : 1;
}
