/*
 * Ipaqsuni: the proved control core of Power-over-Ethernet boards, for C and for whatever calls as C does.
 *
 * The table is IPAQSUNI_CELLS cells of 16 bits that the caller owns, in the machine's own byte order: struct ipaqsuni_table. It
 * begins with ipaqsuni_cold_start or ipaqsuni_restore; every further call is lent it and changes it in place. The caller may read
 * it and copy it; the library keeps nothing. To store it, or to send it to another processor, there is its image: IPAQSUNI_IMAGE
 * bytes, the same on all of them (ipaqsuni_save).
 *
 * Each function answers 0, or the number of the refusal. What is said below is proved of each function for all cells, all bytes and
 * all numbers that it is handed, and it leaves one possible answer and one possible content of everything lent:
 *   - A refusal writes no cell and no byte anywhere: not in the table, and in no place for an answer.
 *   - Cells that are no table are refused with 13, before everything else: another length, or in a port below the count a state
 *     over 9 or a latch bit over 7. So is a table that is ill-made (13 below).
 *   - Places at or past the count may hold anything, are never looked at and never change. Reserved cells are 0 after a cold start
 *     or a restore, and are never looked at or changed by any other call. (A cold start and a restore look at the number of cells
 *     alone, and write every cell; a save looks at all 48 places, and takes an ill-made table too.)
 *   - What an accepted call leaves in the cells is the table that document 01's rules give.
 *   - No refusal is numbered 0.
 *
 * Not proved, because it lies with the caller:
 *   - A pointer is to so many cells or bytes (or to the one number, or to nine numbers) that can be read, and written where it is
 *     not const; it is not NULL, also where the length is 0; what is lent to one call does not overlap; and nobody else writes it
 *     during the call.
 *   - Cells are aligned as C aligns uint16_t, and a place for a number as it aligns uint32_t or uint64_t. Bytes need no alignment.
 *   - Every lent cell and byte has been written once before, those for a cold start too: a static or zeroed table has been.
 *   - Between two calls the table is in memory that the caller trusts. A flipped bit, or a cell that the caller wrote, may make
 *     another table that is well-made: then the core moves that table by the rules, and 13 is not given.
 *   - The stack: no theorem bounds it. Measured (tools/stack), with everything that is called but memcpy: on x86-64 a tick needs 1072
 *     bytes, request, status and control at most 192, the others at most 184; on aarch64 880, 80 and 48.
 */
#ifndef IPAQSUNI_H
#define IPAQSUNI_H

#include <stddef.h>
#include <stdint.h>

#ifdef __cplusplus
extern "C" {
#endif

/* The version of this interface: its three numbers, and the text of them with points between. */
#define IPAQSUNI_VERSION_MAJOR 0
#define IPAQSUNI_VERSION_MINOR 3
#define IPAQSUNI_VERSION_PATCH 0
#define IPAQSUNI_TEXT_OF(major, minor, patch) #major "." #minor "." #patch
#define IPAQSUNI_TEXT(major, minor, patch) IPAQSUNI_TEXT_OF(major, minor, patch)
#define IPAQSUNI_VERSION IPAQSUNI_TEXT(IPAQSUNI_VERSION_MAJOR, IPAQSUNI_VERSION_MINOR, IPAQSUNI_VERSION_PATCH)

/* What a function answers: that it did what it is for, or the refusal, each with what it is given for. */
#define IPAQSUNI_OK 0
/* a sample block is not 14 bytes per port; a PDU is over 1,500 bytes; the room for a written TLV is too short, or that for an image
   of another length than an image */
#define IPAQSUNI_BAD_LENGTH 1
/* port number not below the port count; a cold start asked for 0 or over 48 ports */
#define IPAQSUNI_NO_SUCH_PORT 2
/* reserved bits or codes in a control word or in sample flags; a type, source or priority code over 3, an octet over 255,
   or a form other than 7 and 12 handed to the writer */
#define IPAQSUNI_RESERVED 3
/* supply figure over 60,000 */
#define IPAQSUNI_SUPPLY_TOO_LARGE 4
/* port in the wrong state for the call */
#define IPAQSUNI_WRONG_STATE 5
/* a TLV runs past the end of the bytes */
#define IPAQSUNI_CUT 6
/* no power TLV in the PDU */
#define IPAQSUNI_NO_TLV 7
/* more than one power TLV in the PDU */
#define IPAQSUNI_SEVERAL_TLVS 8
/* the bytes are not exactly one power TLV of length 7 or 12 */
#define IPAQSUNI_NOT_ONE_TLV 9
/* power value above 999 in a TLV that is read or written; a request of 0 or above 999 */
#define IPAQSUNI_BAD_VALUE 10
/* request over the port's class; one of 256 to 999 is over every class */
#define IPAQSUNI_OVER_CLASS 11
/* request does not fit the supply */
#define IPAQSUNI_OVER_SUPPLY 12
/* ill-made table; cells that are no table, or that no image holds; bytes that are no image */
#define IPAQSUNI_ILL_MADE 13

/* Lengths, in bytes but for the first two. */
#define IPAQSUNI_PORTS 48 /* the most ports of a table */
#define IPAQSUNI_CELLS 728 /* a table, in cells of 16 bits */
#define IPAQSUNI_IMAGE 1014 /* the image of a table */
#define IPAQSUNI_SAMPLE 14 /* a port's part of a sample block */
#define IPAQSUNI_LONGEST_PDU 1500
#define IPAQSUNI_LONGEST_TLV 14 /* a written TLV of form 12, with its header; one of form 7 is 9 */

/* The highest requested or allocated value of a TLV, in tenths of a watt; the lowest is 0. */
#define IPAQSUNI_HIGHEST_VALUE 999

/* A table. Each array has a place for each port, of which those below the count are in use. */
struct ipaqsuni_table {
    uint16_t count; /* of the ports */
    uint16_t supply; /* the figure that the last tick stored, in tenths of a watt, as demands are */
    uint16_t reserved_head[6];
    uint16_t state[IPAQSUNI_PORTS]; /* IPAQSUNI_STATE_.. */
    uint16_t control[IPAQSUNI_PORTS]; /* the control word */
    uint16_t demand[IPAQSUNI_PORTS];
    uint16_t power_class[IPAQSUNI_PORTS]; /* 0 to 4 */
    uint16_t latches[IPAQSUNI_PORTS]; /* IPAQSUNI_LATCH_.., joined */
    /* counters, in ticks */
    uint16_t detection[IPAQSUNI_PORTS];
    uint16_t backoff[IPAQSUNI_PORTS];
    uint16_t error_delay[IPAQSUNI_PORTS];
    uint16_t power_on[IPAQSUNI_PORTS];
    uint16_t limiting[IPAQSUNI_PORTS];
    uint16_t overload[IPAQSUNI_PORTS];
    uint16_t no_load[IPAQSUNI_PORTS];
    uint16_t reserved[3][IPAQSUNI_PORTS];
};

#if defined(__cplusplus) && __cplusplus >= 201103L
static_assert(sizeof(struct ipaqsuni_table) == 2 * IPAQSUNI_CELLS, "a table is IPAQSUNI_CELLS cells without a hole");
#elif defined(__STDC_VERSION__) && __STDC_VERSION__ >= 201112L
_Static_assert(sizeof(struct ipaqsuni_table) == 2 * IPAQSUNI_CELLS, "a table is IPAQSUNI_CELLS cells without a hole");
#endif

/* The two arguments by which a table goes into a call, of a pointer to it: ipaqsuni_cold_start(IPAQSUNI_LENT(&table), 48) */
#define IPAQSUNI_LENT(table) (uint16_t *)(table), IPAQSUNI_CELLS

/* What a port's state may be. */
#define IPAQSUNI_STATE_DISABLED 0
#define IPAQSUNI_STATE_IDLE 1
#define IPAQSUNI_STATE_DETECTING 2
#define IPAQSUNI_STATE_BACKOFF 3
#define IPAQSUNI_STATE_CLASSIFYING 4
#define IPAQSUNI_STATE_POWER_UP 5
#define IPAQSUNI_STATE_POWER_ON 6
#define IPAQSUNI_STATE_ERROR_DELAY 7
#define IPAQSUNI_STATE_TEST_MODE 8
#define IPAQSUNI_STATE_TEST_ERROR 9

/* The bits of a port's latches. A status word has them at bits 7 to 14, each seven places higher. The last two are the failures of a
   class reading, latched in the tick in which a port in CLASSIFYING takes one: the first current above 45,000 uA; a second that is not
   class 4, one above 45,000 uA too, after a first that is. At the end of CLASSIFYING's time nothing is latched. */
#define IPAQSUNI_LATCH_LOAD_ABSENT 1
#define IPAQSUNI_LATCH_OVERLOAD 2
#define IPAQSUNI_LATCH_SHORT_CIRCUIT 4
#define IPAQSUNI_LATCH_INVALID 8
#define IPAQSUNI_LATCH_VALID 16
#define IPAQSUNI_LATCH_DENIED 32
#define IPAQSUNI_LATCH_CLASS_OVER_CURRENT 64
#define IPAQSUNI_LATCH_EVENTS_DISAGREE 128

/* The places of a power TLV's fields. */
#define IPAQSUNI_FORM 0 /* the TLV's length, 7 or 12; the last five are 0 for 7 */
#define IPAQSUNI_SUPPORT 1
#define IPAQSUNI_PAIR 2
#define IPAQSUNI_CLASS 3
#define IPAQSUNI_TYPE 4
#define IPAQSUNI_SOURCE 5
#define IPAQSUNI_PRIORITY 6
#define IPAQSUNI_REQUESTED 7
#define IPAQSUNI_ALLOCATED 8
#define IPAQSUNI_FIELDS 9

/*
 * Leaves a cold table of so many ports: every port DISABLED, control 0x0004, no latch, zero counters, class and demand 0, stored
 * supply 0. What the cells held before does not matter. Refused: 13 for another length than IPAQSUNI_CELLS, then 2.
 */
uint32_t ipaqsuni_cold_start(uint16_t *cells, size_t cells_len, uint32_t ports);

/* The port's control word becomes word, and nothing else changes. Refused: 13, 2, 3, 5. */
uint32_t ipaqsuni_write_control(uint16_t *cells, size_t cells_len, uint32_t port, uint32_t word);

/* The port's status word goes to *status, and its eight latches are cleared, no more. Refused: 13, 2. */
uint32_t ipaqsuni_read_status(uint16_t *cells, size_t cells_len, uint32_t port, uint32_t *status);

/*
 * The demand that an LLDP request for value stands for becomes the port's, and nothing else changes. Refused: 13, 2, 10, 5, 11, 12. A TLV
 * may request 0, which is no wish, and up to 999; asked for here, 0 is refused with 10, and 256 to 999 with 11.
 */
uint32_t ipaqsuni_request(uint16_t *cells, size_t cells_len, uint32_t port, uint32_t value);

/*
 * One millisecond: every port moves on its 14 bytes of samples, the supply is shared, and its figure is stored. *mask_a and
 * *mask_b get a bit for each port that is closed on that alternative, *closed the number of closed ports. Refused: 13, 1, 4, 3.
 */
uint32_t ipaqsuni_tick(uint16_t *cells, size_t cells_len, const uint8_t *samples, size_t samples_len, uint32_t supply,
                       uint64_t *mask_a, uint64_t *mask_b, uint32_t *closed);

/*
 * Writes the table's image; the table stays as it is. Refused: 13 for cells that no image holds (another length, or at any of the
 * 48 places a state over 9, a latch bit over 7 or a class over 255), then 1 for a room of another length than IPAQSUNI_IMAGE. A
 * table that is ill-made otherwise has an image.
 */
uint32_t ipaqsuni_save(const uint16_t *cells, size_t cells_len, uint8_t *image, size_t image_len);

/*
 * Leaves the table that the image is of. What the cells held before does not matter. Refused: 13 for bytes that are no image
 * (another length, a state over 9, a supply over 16 bits) and for another number of cells than IPAQSUNI_CELLS.
 * An image may be of an ill-made table, which further calls then refuse.
 */
uint32_t ipaqsuni_restore(uint16_t *cells, size_t cells_len, const uint8_t *image, size_t image_len);

/* The part of the PDU that is its one power TLV, header included: *offset and *length. Refused: 1, 6, 8, 7. */
uint32_t ipaqsuni_find_power_tlv(const uint8_t *pdu, size_t pdu_len, uint64_t *offset, uint64_t *length);

/* The fields of the one power TLV that the bytes are. Refused: 6, 9, 10. */
uint32_t ipaqsuni_read_power_tlv(const uint8_t *tlv, size_t tlv_len, uint32_t fields[IPAQSUNI_FIELDS]);

/*
 * Writes the TLV of the fields to the start of the room, and its length to *written; the room past it keeps its bytes. Of
 * form 7 the last five fields are not looked at. Refused: 3, 10, 1.
 */
uint32_t ipaqsuni_write_power_tlv(const uint32_t fields[IPAQSUNI_FIELDS], uint8_t *room, size_t room_len, uint64_t *written);

#ifdef __cplusplus
}
#endif

#endif
