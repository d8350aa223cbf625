/* Writes the worked frame of docs/FRAMES.md, reads it back, and shows two refusals. */
#include "mrp.h"

#include <inttypes.h>
#include <stdio.h>

#define ROOM 60

static const uint8_t node[6] = {0x02, 0x00, 0x00, 0x00, 0x00, 0x00};
static const uint8_t domain[16] = {0xFF, 0xFF, 0xFF, 0xFF, 0xFF, 0xFF, 0xFF, 0xFF,
                                   0xFF, 0xFF, 0xFF, 0xFF, 0xFF, 0xFF, 0xFF, 0xFF};

static const char *const field_names[] = {"sequence",   "priority", "port role", "ring state", "transitions",
                                          "time stamp", "interval", "blocked",   "source at",  "sender at",
                                          "domain at"};

static uint32_t write_change(uint16_t priority, uint8_t *out, size_t length)
{
    return mrp_write_topology_change(node, sizeof node, priority, node, sizeof node, 30, 0, domain, sizeof domain, out,
                                     length);
}

static void print_octets(const char *name, const uint8_t *octets, size_t length)
{
    printf("%s:", name);
    for (size_t i = 0; i < length; i++)
        printf(" %02X", octets[i]);
    printf("\n");
}

static void print_fields(const uint8_t *frame, size_t length)
{
    for (uint32_t field = MRP_SEQUENCE; field <= MRP_DOMAIN_AT; field++) {
        uint64_t value = mrp_field(frame, length, field);
        if (value < MRP_NO_VALUE)
            printf("%s: %" PRIu64 "\n", field_names[field], value);
        else
            printf("%s: none in this kind of frame\n", field_names[field]);
    }
}

/* Prints the octets of a part, whose place is the value of a field. */
static void print_part(const char *name, const uint8_t *frame, size_t length, uint32_t field, size_t part_length)
{
    uint64_t at = mrp_field(frame, length, field);
    if (at < MRP_NO_VALUE)
        print_octets(name, frame + at, part_length);
}

int main(void)
{
    uint8_t frame[ROOM];

    uint32_t total = write_change(0x8000, frame, sizeof frame);
    if (MRP_IS_REFUSAL(total)) {
        printf("not written, refused as %" PRIu32 "\n", total);
        return 1;
    }
    printf("written: %" PRIu32 " octets\n", total);
    print_octets("frame", frame, total);

    printf("kind: 0x%" PRIX32 "\n", mrp_read(frame, total));
    print_fields(frame, total);
    print_part("source", frame, total, MRP_SOURCE_AT, sizeof node);
    print_part("sender", frame, total, MRP_SENDER_AT, sizeof node);
    print_part("domain", frame, total, MRP_DOMAIN_AT, sizeof domain);

    printf("read without its last octet: refused as %" PRIu32 "\n", mrp_read(frame, total - 1));
    printf("written to one octet less: refused as %" PRIu32 "\n", write_change(0x8000, frame, total - 1));
    printf("written with priority 0x8001: refused as %" PRIu32 "\n", write_change(0x8001, frame, sizeof frame));
    return 0;
}
