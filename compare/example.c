/* Reads the example parts of document 01 under table P through include/nas.h, by table number and by a lent table, and prints
 * what each gives: number and values, the values that places hold, with their rows, the order log and the kept log. Writes
 * each back and checks it as a supplier's, sets places as in document 01's examples of edits and writes that, and reads and writes the
 * mandatory rows of a registration request. */
#include <stdio.h>
#include <string.h>

#include "../include/nas.h"

enum { PLACES = 5, ROOM = 64, MOST = 8 };

static const uint32_t table_p[10 * PLACES] = {
    1, 0xc0, 0,    0, 0, 0, 0, 0, 1,     7,   /* 0: half octet */
    1, 0x10, 0,    0, 0, 2, 0, 3, 257,   255, /* 1: TLV */
    1, 0x52, 0,    0, 0, 1, 2, 0, 3,     255, /* 2: fixed, two octets */
    2, 0x2f, 0x31, 0, 0, 2, 0, 2, 257,   7,   /* 3: TLV, two IEIs */
    1, 0x77, 0,    0, 0, 3, 0, 3, 65538, 255, /* 4: TLV-E */
};

static const struct {
    uint8_t option;
    size_t len;
    uint8_t octets[MOST];
} parts[] = {
    {0, 0, {0}},
    {0, 4, {0xc1, 0x10, 0x01, 0xaa}},
    {0, 5, {0x10, 0x00, 0x10, 0x01, 0xaa}},
    {0, 3, {0x31, 0x01, 0x02}},
    {0, 4, {0x52, 0x07, 0x08, 0xc1}},
    {1, 4, {0x52, 0x07, 0x08, 0xc1}},
    {1, 4, {0x52, 0x07, 0x08, 0xc3}},
    {0, 5, {0xc1, 0x90, 0x10, 0x01, 0xaa}},
    {0, 5, {0x77, 0x00, 0x05, 0xaa, 0xc1}},
    {0, 2, {0x6f, 0x00}},
    {0, 3, {0x70, 0x00, 0x00}},
    {0, 3, {0x05, 0x01, 0xaa}},
    {0, 3, {0x05, 0x02, 0xaa}},
    {0, 2, {0x7e, 0x00}},
};

/* set octets, none of them used */
static const uint8_t unset[ROOM];

struct lent {
    uint32_t rows[4 * PLACES];
    uint8_t kept[ROOM], order[ROOM];
    uint64_t values[5];
};

static void hex(const char *name, const uint8_t *octets, size_t len)
{
    printf("%s:", name);
    for (size_t i = 0; i < len; i++)
        printf(" %02x", octets[i]);
    printf("%s\n", len == 0 ? " empty" : "");
}

/* The value of a place, by its row; nothing where it is absent. */
static void show(const struct lent *a, const uint8_t *part, size_t len, size_t place)
{
    const uint32_t *row = a->rows + 4 * place;
    uint64_t values[5];
    uint32_t number = nas_show(table_p, 10 * PLACES, a->rows, 4 * PLACES, part, len, part, 0, 0, place, values);
    if (number != 0)
        printf("  place %zu: not shown, %u\n", place, (unsigned)number);
    if (row[0] == 0 || number != 0)
        return;
    printf("  place %zu: source %u, start %u, length %u, IEI %02x, ", place, (unsigned)row[0], (unsigned)row[1], (unsigned)row[2],
           (unsigned)row[3]);
    if (table_p[10 * place + 5] == 0)
        printf("four bits: %llx\n", (unsigned long long)values[1]);
    else
        hex("value", part + values[2], (size_t)values[3]);
}

/* What a reading left, written back: by number, and by the table where that is asked for. */
static uint32_t put(const struct lent *a, const uint8_t *part, size_t len, const uint8_t *set, size_t used, int by_table,
                    uint8_t *output, uint64_t values[5])
{
    size_t kept = (size_t)a->values[1], order = (size_t)a->values[2];
    if (by_table)
        return nas_write(table_p, 10 * PLACES, a->rows, 4 * PLACES, part, len, set, ROOM, used, a->kept, ROOM, kept, a->order,
                         ROOM, order, output, ROOM, values);
    return nas_write_by(0, a->rows, 4 * PLACES, part, len, set, ROOM, used, a->kept, ROOM, kept, a->order, ROOM, order, output,
                        ROOM, values);
}

/* Prints what writing gives; whether both ways give the same. */
static int written(const struct lent *a, const uint8_t *part, size_t len, const uint8_t *set, size_t used)
{
    uint8_t output[2][ROOM];
    uint64_t values[2][5];
    memset(output, 0xee, sizeof output);
    memset(values, 0xee, sizeof values);
    uint32_t number = put(a, part, len, set, used, 0, output[0], values[0]);
    uint32_t by_table = put(a, part, len, set, used, 1, output[1], values[1]);
    if (number == 0)
        hex("  written", output[0], (size_t)values[0][1]);
    else
        printf("  not written, %u\n", (unsigned)number);
    return number == by_table && memcmp(output[0], output[1], ROOM) == 0 && memcmp(values[0], values[1], sizeof *values) == 0;
}

static const struct {
    size_t len;
    uint8_t octets[MOST];
    size_t place, value_len;
    uint8_t value[2];
} edits[] = {
    {6, {0x10, 0x01, 0xaa, 0x77, 0x00, 0x00}, 3, 1, {0x02}},
    {3, {0x31, 0x01, 0x02}, 3, 1, {0x01}},
    {5, {0xc1, 0x90, 0x10, 0x01, 0xaa}, 2, 2, {0x07, 0x08}},
    {5, {0xc1, 0x90, 0x10, 0x01, 0xaa}, 2, 1, {0x07}}, /* a fixed form of two octets */
    {5, {0xc1, 0x90, 0x10, 0x01, 0xaa}, 0, 1, {0x10}}, /* a half octet has four bits */
};

/* Reads a part, sets a place and writes it; then clears that place and writes it once more. */
static int edit(size_t i)
{
    struct lent a;
    const uint8_t *part = edits[i].octets;
    size_t len = edits[i].len, place = edits[i].place;
    uint8_t set[ROOM] = {0};
    uint64_t values[5];
    memset(&a, 0xee, sizeof a);
    if (nas_read_by(0, part, len, 0, a.rows, 4 * PLACES, a.kept, ROOM, a.order, ROOM, a.values) != 0)
        return 0;
    hex("part", part, len);
    printf("  place %zu, ", place);
    hex("set to", edits[i].value, edits[i].value_len);
    uint32_t number = nas_set(table_p, 10 * PLACES, a.rows, 4 * PLACES, part, len, set, ROOM, 0, a.order, ROOM,
                              (size_t)a.values[2], place, edits[i].value, edits[i].value_len, values);
    if (number != 0) {
        printf("  refused %u: %llu\n", (unsigned)number, (unsigned long long)values[1]);
        return written(&a, part, len, set, 0);
    }
    size_t used = (size_t)values[1];
    int same = written(&a, part, len, set, used);
    printf("  place %zu cleared\n", place);
    if (nas_clear(table_p, 10 * PLACES, a.rows, 4 * PLACES, part, len, set, ROOM, used, place, values) != 0)
        return 0;
    return written(&a, part, len, set, used) && same;
}

/* The mandatory rows of a registration request: registration type and key set identifier in one octet, and an identity of at
 * least four octets. The first is good; of the second the identity has one octet; the third is cut inside it; the types of the
 * last two are reserved, and the last is cut too. What follows the rows belongs to the optional part. */
static const struct {
    size_t len;
    uint8_t octets[MOST];
} requests[] = {
    {8, {0x71, 0x00, 0x04, 0xf2, 0x0a, 0x0b, 0x0c, 0xc1}},
    {5, {0x71, 0x00, 0x01, 0xf2, 0xc1}},
    {5, {0x71, 0x00, 0x04, 0xf2, 0x0a}},
    {7, {0x77, 0x00, 0x04, 0xf2, 0x0a, 0x0b, 0x0c}},
    {2, {0x77, 0x00}},
};

/* Reads the rows of a request, and writes them. */
static void request(size_t i, uint8_t lenient)
{
    enum { ROWS = 3 };
    uint32_t rows[3 * ROWS], notes[64];
    uint64_t values[5];
    uint8_t output[ROOM];
    const uint8_t *part = requests[i].octets;
    size_t len = requests[i].len;
    uint32_t number = nas_read_mandatory_by(1, part, len, lenient, rows, 3 * ROWS, notes, values);
    hex(lenient ? "request, lenient" : "request, strict", part, len);
    if (number == 0)
        printf("  0: %llu octets read\n", (unsigned long long)values[1]);
    else
        printf("  refused %u: row %llu\n", (unsigned)number, (unsigned long long)values[1]);
    for (size_t k = 0; k < values[2]; k++)
        printf("  note: row %u, %u\n", (unsigned)notes[2 * k], (unsigned)notes[2 * k + 1]);
    if (number != 0)
        return;
    for (size_t k = 0; k < ROWS; k++)
        printf("  row %zu: source %u, start %u, length %u\n", k, (unsigned)rows[3 * k], (unsigned)rows[3 * k + 1],
               (unsigned)rows[3 * k + 2]);
    number = nas_write_mandatory_by(1, rows, 3 * ROWS, part, len, part, 0, 0, output, ROOM, values);
    if (number == 0)
        hex("  written", output, (size_t)values[1]);
    else
        printf("  not written, %u\n", (unsigned)number);
}

/* Prints whether the part would be accepted from a supplier; whether both ways give the same. */
static int checked(const uint8_t *part, size_t len)
{
    uint64_t values[2][5];
    memset(values, 0xee, sizeof values);
    uint32_t number = nas_check_part_by(0, part, len, values[0]);
    uint32_t by_table = nas_check_part(part, len, table_p, 10 * PLACES, 0x70, values[1]);
    if (number == 0)
        printf("  checked: accepted\n");
    else if (number == 29)
        printf("  checked: 29 at %llu\n", (unsigned long long)values[0][1]);
    else
        printf("  checked: refused %u\n", (unsigned)number);
    return number == by_table && memcmp(values[0], values[1], sizeof *values) == 0;
}

int main(void)
{
    int differ = 0;
    for (size_t i = 0; i < sizeof parts / sizeof *parts; i++) {
        struct lent a, b;
        const uint8_t *part = parts[i].octets;
        size_t len = parts[i].len;
        /* all octets alike, so that both are the same where nothing is written */
        memset(&a, 0xee, sizeof a);
        memset(&b, 0xee, sizeof b);
        uint32_t number = nas_read_by(0, part, len, parts[i].option, a.rows, 4 * PLACES, a.kept, ROOM, a.order, ROOM, a.values);
        uint32_t by_table = nas_read(part, len, table_p, 10 * PLACES, 0x70, parts[i].option, b.rows, 4 * PLACES, b.kept, ROOM,
                                     b.order, ROOM, b.values);
        if (number != by_table || memcmp(&a, &b, sizeof a) != 0)
            differ = 1;

        hex(parts[i].option ? "part, option on" : "part", part, len);
        if (number == 0) {
            printf("  0: %llu octets of the kept log, %llu of the order log\n", (unsigned long long)a.values[1],
                   (unsigned long long)a.values[2]);
            for (size_t k = 0; k < PLACES; k++)
                show(&a, part, len, k);
            hex("  order log", a.order, (size_t)a.values[2]);
            hex("  kept log", a.kept, (size_t)a.values[1]);
            if (!written(&a, part, len, unset, 0))
                differ = 1;
        } else {
            printf("  refused %u: %llu, %02llx, %llu, %llu missing\n", (unsigned)number, (unsigned long long)a.values[1],
                   (unsigned long long)a.values[2], (unsigned long long)a.values[3], (unsigned long long)a.values[4]);
        }
        if (!checked(part, len))
            differ = 1;
        printf("\n");
    }
    for (size_t i = 0; i < sizeof edits / sizeof *edits; i++) {
        if (!edit(i))
            differ = 1;
        printf("\n");
    }
    for (size_t i = 0; i < sizeof requests / sizeof *requests; i++) {
        request(i, 0);
        request(i, 1);
        printf("\n");
    }
    printf("%s\n", differ ? "by number and by table: different" : "by number and by table: the same");
    return differ;
}
