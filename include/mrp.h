/*
 * Frames of the Media Redundancy Protocol (MRP), read and written by the proved library libfirmware.a.
 *
 * All calls work on numbers and on octets that the caller lends as a pointer and a length. They keep nothing,
 * allocate nothing and never fail otherwise than by the answers given here. A length of 0 may come with any
 * pointer that is not null. The octets that are read and the octets that are written must not overlap.
 *
 * docs/FRAMES.md has every octet of a frame, docs/REFUSALS.md every refusal, docs/C-API.md this interface.
 */
#ifndef MRP_H
#define MRP_H

#include <stddef.h>
#include <stdint.h>

#ifdef __cplusplus
extern "C" {
#endif

/* Refusals have the numbers 1 to 25. No total of a frame and no kind is so small. */
#define MRP_IS_REFUSAL(answer) ((answer) <= 25)

/* The kinds of frame, as mrp_read answers them. */
#define MRP_TEST 0x102
#define MRP_TOPOLOGY_CHANGE 0x103
#define MRP_LINK_DOWN 0x104
#define MRP_LINK_UP 0x105

/* The fields of a frame, as mrp_field takes them. */
#define MRP_SEQUENCE 0    /* all kinds */
#define MRP_PRIORITY 1    /* Test, TopologyChange */
#define MRP_PORT_ROLE 2   /* Test, LinkDown, LinkUp: 0 primary, 1 secondary */
#define MRP_RING_STATE 3  /* Test: 0 open, 1 closed */
#define MRP_TRANSITIONS 4 /* Test */
#define MRP_TIME_STAMP 5  /* Test */
#define MRP_INTERVAL 6    /* TopologyChange, LinkDown, LinkUp: in ms */
#define MRP_BLOCKED 7     /* LinkDown, LinkUp: 1 where the client can block */
#define MRP_SOURCE_AT 8   /* all kinds: the place of the six octets of the source */
#define MRP_SENDER_AT 9   /* all kinds: the place of the six octets of the sender */
#define MRP_DOMAIN_AT 10  /* all kinds: the place of the sixteen octets of the domain */

/* What mrp_field answers where there is no value: this number, and the number of the refusal if there is one. */
#define MRP_NO_VALUE UINT64_C(0x100000000)

/* The kind of the frame in these octets, or the number of its refusal (1 to 11). */
uint32_t mrp_read(const uint8_t *octets, size_t length);

/*
 * A field of the frame in these octets: its value, below MRP_NO_VALUE; MRP_NO_VALUE + n where the frame is refused
 * as n; MRP_NO_VALUE where the number names no field of this kind of frame.
 */
uint64_t mrp_field(const uint8_t *octets, size_t length, uint32_t field);

/*
 * Each of the four below writes one frame to the front of `out` and answers its total (58, 50, 52, 52), or answers a
 * refusal and writes nothing: 8 where a field is outside its values or a part does not have its length (source and
 * sender six octets, domain sixteen), else 12 where `out` is shorter than the total. Octets of `out` past the total
 * stay as they are.
 */
uint32_t mrp_write_test(const uint8_t *source, size_t source_length, uint16_t priority, const uint8_t *sender,
                        size_t sender_length, uint16_t port_role, uint16_t ring_state, uint16_t transitions,
                        uint32_t time_stamp, uint16_t sequence, const uint8_t *domain, size_t domain_length,
                        uint8_t *out, size_t out_length);

uint32_t mrp_write_topology_change(const uint8_t *source, size_t source_length, uint16_t priority,
                                   const uint8_t *sender, size_t sender_length, uint16_t interval, uint16_t sequence,
                                   const uint8_t *domain, size_t domain_length, uint8_t *out, size_t out_length);

uint32_t mrp_write_link_down(const uint8_t *source, size_t source_length, const uint8_t *sender, size_t sender_length,
                             uint16_t port_role, uint16_t interval, uint16_t blocked, uint16_t sequence,
                             const uint8_t *domain, size_t domain_length, uint8_t *out, size_t out_length);

uint32_t mrp_write_link_up(const uint8_t *source, size_t source_length, const uint8_t *sender, size_t sender_length,
                           uint16_t port_role, uint16_t interval, uint16_t blocked, uint16_t sequence,
                           const uint8_t *domain, size_t domain_length, uint8_t *out, size_t out_length);

#ifdef __cplusplus
}
#endif

#endif
