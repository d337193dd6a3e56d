/* Calls each function of the header, accepted and refused, and compares the whole answer and every output. Prints a line for each fault, and
 * the tally at the end. */
#include "tockplover.h"

#include <stdio.h>
#include <string.h>

static unsigned passed, failed;

static void check(const char *name, int right)
{
    if (right) {
        passed++;
    } else {
        failed++;
        printf("FAILED %s\n", name);
    }
}

/* The structs as the archive lays them out. */
#define LAID_OUT(type, size) _Static_assert(sizeof(type) == size, #type)
#define LIES_AT(type, member, offset) _Static_assert(offsetof(type, member) == offset, #type "." #member)
LAID_OUT(tockplover_refusal, 32);
LIES_AT(tockplover_refusal, number, 0);
LIES_AT(tockplover_refusal, place, 8);
LIES_AT(tockplover_refusal, kind, 16);
LIES_AT(tockplover_refusal, missing, 24);
LAID_OUT(tockplover_size, 40);
LAID_OUT(tockplover_value, 40);
LAID_OUT(tockplover_number, 48);
LAID_OUT(tockplover_extension, 48);
LAID_OUT(tockplover_counts, 48);
LAID_OUT(tockplover_span, 48);
LAID_OUT(tockplover_part, 16);
LAID_OUT(tockplover_address, 56);
LIES_AT(tockplover_address, kind, 32);
LIES_AT(tockplover_address, rest, 40);
LAID_OUT(tockplover_message, 120);
LAID_OUT(tockplover_reply, 48);
LAID_OUT(tockplover_invoice, 112);
LAID_OUT(tockplover_entry, 64);
LAID_OUT(tockplover_profile, 48);
LIES_AT(tockplover_profile, count, 32);
LIES_AT(tockplover_profile, rules, 40);
LAID_OUT(tockplover_halves, 16);
LAID_OUT(tockplover_figures, 28720);
LIES_AT(tockplover_figures, pairs, 8);
LIES_AT(tockplover_figures, rows, 16);
LIES_AT(tockplover_figures, invoices, 28688);
LIES_AT(tockplover_figures, sum, 28704);
LAID_OUT(tockplover_added, 28752);
LIES_AT(tockplover_added, figures, 32);
LAID_OUT(tockplover_satoshi, 24);
LIES_AT(tockplover_satoshi, satoshi, 8);
LAID_OUT(tockplover_changes, 32);
LIES_AT(tockplover_changes, moved, 0);
LIES_AT(tockplover_changes, dropped, 8);
LIES_AT(tockplover_changes, respelled, 16);
LIES_AT(tockplover_changes, cut, 24);
LAID_OUT(tockplover_mended, 72);
LIES_AT(tockplover_mended, size, 32);
LIES_AT(tockplover_mended, changes, 40);

/* Whether a refusal is so, and so many bytes are missing. */
static int lacks(tockplover_refusal r, uint8_t number, size_t place, uint64_t kind, uint64_t missing)
{
    return r.number == number && r.place == place && r.kind == kind && r.missing == missing;
}

/* Whether it is so, and nothing is missing. */
static int is(tockplover_refusal r, uint8_t number, size_t place, uint64_t kind) { return lacks(r, number, place, kind, 0); }

static int yes(tockplover_refusal r) { return is(r, 0, 0, 0); }

static int part_is(tockplover_part p, size_t start, size_t size) { return p.start == start && p.size == size; }

/* An output, filled with a mark before each call. */
#define MARK 0xa5
#define ROOM 8192
static uint8_t out[ROOM];
static uint64_t rows[ROOM];

static void mark(void)
{
    memset(out, MARK, sizeof out);
    memset(rows, MARK, sizeof rows);
}

/* Whether the front of the output is as given, and the rest as it was. */
static int out_is(const void *bytes, size_t size)
{
    if (memcmp(out, bytes, size) != 0)
        return 0;
    for (size_t i = size; i < ROOM; i++)
        if (out[i] != MARK)
            return 0;
    return 1;
}

static int rows_are(const uint64_t *numbers, size_t count)
{
    uint64_t marked;
    memset(&marked, MARK, sizeof marked);
    for (size_t i = 0; i < count; i++)
        if (rows[i] != numbers[i])
            return 0;
    for (size_t i = count; i < ROOM; i++)
        if (rows[i] != marked)
            return 0;
    return 1;
}

static int untouched(void) { return out_is("", 0) && rows_are(rows, 0); }

#define BYTES(...) ((const uint8_t[]){__VA_ARGS__}), sizeof((const uint8_t[]){__VA_ARGS__})
#define NUMBERS(...) ((const uint64_t[]){__VA_ARGS__}), sizeof((const uint64_t[]){__VA_ARGS__}) / sizeof(uint64_t)
static const uint8_t no_bytes[1];
static const uint64_t no_numbers[1];
#define NO_BYTES no_bytes, 0
#define NO_NUMBERS no_numbers, 0

static const uint64_t table[] = {0, 1, 2, 8, 0, 2, 1, 8, 1, 3, 0, 0};
#define TABLE table, 12

static void versions(void)
{
    char text[32];
    snprintf(text, sizeof text, "%d.%d.%d", TOCKPLOVER_VERSION_MAJOR, TOCKPLOVER_VERSION_MINOR, TOCKPLOVER_VERSION_PATCH);
    check("version, the archive's", tockplover_version() == TOCKPLOVER_VERSION_NUMBER);
    check("version, in words", strcmp(text, TOCKPLOVER_VERSION) == 0);
}

static void numbers(void)
{
    tockplover_number n = tockplover_bigsize_read(BYTES(0xfd, 0x02, 0x05, 0x77));
    check("bigsize_read", yes(n.refusal) && n.value == 517 && n.width == 3);
    n = tockplover_bigsize_read(BYTES(0xff, 0xff, 0xfe, 0xfd, 0xfc, 0xfb, 0xfa, 0xf9, 0xf8));
    check("bigsize_read, nine bytes", yes(n.refusal) && n.value == UINT64_C(0xfffefdfcfbfaf9f8) && n.width == 9);
    n = tockplover_bigsize_read(BYTES(0xfd, 0x00, 0xfc));
    check("bigsize_read 2", is(n.refusal, 2, 0, 0) && n.value == 0 && n.width == 0);
    n = tockplover_bigsize_read(NO_BYTES);
    check("bigsize_read 13", lacks(n.refusal, 13, 0, 0, 1));

    mark();
    tockplover_size s = tockplover_bigsize_write(65536, out, ROOM);
    check("bigsize_write", yes(s.refusal) && s.size == 5 && out_is("\xfe\x00\x01\x00\x00", 5));
    mark();
    s = tockplover_bigsize_write(65536, out, 4);
    check("bigsize_write 12", is(s.refusal, 12, 0, 0) && s.size == 0 && untouched());

    tockplover_value v = tockplover_money_to_sat(2000);
    check("money_to_sat", yes(v.refusal) && v.value == 2);
    v = tockplover_money_to_sat(2001);
    check("money_to_sat 43", is(v.refusal, 43, 0, 0) && v.value == 0);
}

static void tables(void)
{
    check("table_check", yes(tockplover_table_check(TABLE)));
    check("table_check 60", is(tockplover_table_check(table, 11), 60, 0, 0));
    check("table_check 62", is(tockplover_table_check(NUMBERS(0, 2, 0, 0, 0, 1, 0, 0)), 62, 0, 0));
    check("table_check, an address", yes(tockplover_table_check(NUMBERS(0, 1, 6, 0))));
    check("table_check 63, an address", is(tockplover_table_check(NUMBERS(0, 1, 6, 1)), 63, 0, 0));
    check("table_check 63, form 7", is(tockplover_table_check(NUMBERS(0, 1, 7, 0)), 63, 0, 0));

    tockplover_extension x = tockplover_table_extends(table, 8, TABLE);
    check("table_extends", yes(x.refusal) && x.outcome == TOCKPLOVER_EXTENDS && x.row == 0);
    x = tockplover_table_extends(TABLE, table, 8);
    check("table_extends, a row lacks", yes(x.refusal) && x.outcome == TOCKPLOVER_LACKS && x.row == 2);
    x = tockplover_table_extends(NUMBERS(0, 3, 0, 0), NUMBERS(0, 3, 6, 0));
    check("table_extends, an address of old any bytes", yes(x.refusal) && x.outcome == TOCKPLOVER_LACKS && x.row == 0);
    x = tockplover_table_extends(table, 5, TABLE);
    check("table_extends, older 60", is(x.refusal, 60, 0, 0) && x.outcome == TOCKPLOVER_OLDER_REFUSED && x.row == 0);
    x = tockplover_table_extends(TABLE, NUMBERS(64, 1, 0, 0));
    check("table_extends, newer 61", is(x.refusal, 61, 0, 0) && x.outcome == TOCKPLOVER_NEWER_REFUSED && x.row == 0);
}

static void streams(void)
{
    const uint8_t stream[] = {0x01, 0x02, 0x07, 0x08, 0x05, 0x01, 0x09};
    const uint64_t index[] = {1, 2, 2, 1, 5, 6, 1, 0};

    tockplover_counts c = tockplover_stream_count(TABLE, 0, stream, 7);
    check("stream_count", yes(c.refusal) && c.records == 2 && c.known == 1);
    c = tockplover_stream_count(TABLE, 0, BYTES(0x1f, 0x00, 0x0f, 0x01, 0x2a));
    check("stream_count 3", is(c.refusal, 3, 2, 15) && c.records == 0 && c.known == 0);
    check("stream_count 61", is(tockplover_stream_count(TABLE, 64, stream, 7).refusal, 61, 0, 0));
    check("stream_count, an empty table", is(tockplover_stream_count(NO_NUMBERS, 0, BYTES(0x12, 0x00)).refusal, 7, 0, 18));
    c = tockplover_stream_count(NUMBERS(0, 1, 6, 0), 0, BYTES(0x01, 0x07, 0x01, 0x7f, 0x00, 0x00, 0x01, 0x26, 0x07));
    check("stream_count, an address", yes(c.refusal) && c.records == 1 && c.known == 1);
    c = tockplover_stream_count(NUMBERS(0, 1, 6, 0), 0, BYTES(0x01, 0x02, 0x05, 0x00));
    check("stream_count 8, no address", is(c.refusal, 8, 0, 1) && c.records == 0 && c.known == 0);

    mark();
    c = tockplover_stream_read(TABLE, 0, stream, 7, rows, ROOM);
    check("stream_read", yes(c.refusal) && c.records == 2 && c.known == 1 && rows_are(index, 8));
    mark();
    c = tockplover_stream_read(TABLE, 0, stream, 7, rows, 7);
    check("stream_read 12", is(c.refusal, 12, 0, 0) && untouched());

    check("stream_contains", yes(tockplover_stream_contains(TABLE, 0, stream, 7, 5)));
    check("stream_contains 15", is(tockplover_stream_contains(TABLE, 0, stream, 7, 4), 15, 0, 4));
    check("stream_contains, the stream's refusal", lacks(tockplover_stream_contains(TABLE, 0, stream, 6, 1), 6, 4, 5, 1));

    tockplover_span v = tockplover_stream_value(TABLE, 0, stream, 7, 5);
    check("stream_value", yes(v.refusal) && v.start == 6 && v.size == 1);
    v = tockplover_stream_value(TABLE, 0, stream, 7, 3);
    check("stream_value 15", is(v.refusal, 15, 0, 3) && v.start == 0 && v.size == 0);

    mark();
    tockplover_size s = tockplover_stream_write(TABLE, 0, NUMBERS(1, 1, 2, 5, 0, 1), BYTES(0x09, 0x07, 0x08), out, ROOM);
    check("stream_write", yes(s.refusal) && s.size == 7 && out_is(stream, 7));
    mark();
    s = tockplover_stream_write(TABLE, 0, NUMBERS(1, 1, 2, 5, 0, 1), BYTES(0x09, 0x07, 0x08), out, 6);
    check("stream_write 12", is(s.refusal, 12, 0, 0) && s.size == 0 && untouched());
    s = tockplover_stream_write(TABLE, 0, NUMBERS(1, 1, 2, 5, 3, 1), BYTES(0x09, 0x07, 0x08), out, ROOM);
    check("stream_write 16", is(s.refusal, 16, 1, 5) && untouched());
    s = tockplover_stream_write(TABLE, 1, NUMBERS(2, 0, 0), NO_BYTES, out, ROOM);
    check("stream_write 7", is(s.refusal, 7, 0, 2) && untouched());
}

/* Types 1 and 6 of namespace 0: an integer, and a stream of the same namespace. */
static const uint64_t nesting[] = {0, 1, 2, 8, 0, 6, 5, 0};
#define NESTING nesting, 8

/* A number of three, five or nine bytes, cut at every byte. */
static void cut_numbers(void)
{
    const struct {
        const char *name;
        uint8_t first;
        size_t announced;
    } forms[] = {
        {"bigsize_read 1, two bytes announced", 0xfd, 2},
        {"bigsize_read 1, four bytes announced", 0xfe, 4},
        {"bigsize_read 1, eight bytes announced", 0xff, 8},
    };
    for (size_t i = 0; i < sizeof forms / sizeof *forms; i++) {
        uint8_t bytes[9] = {forms[i].first};
        int right = 1;
        for (size_t there = 0; there < forms[i].announced; there++) {
            tockplover_number n = tockplover_bigsize_read(bytes, 1 + there);
            right &= lacks(n.refusal, 1, 0, 0, forms[i].announced - there) && n.value == 0 && n.width == 0;
        }
        check(forms[i].name, right);
    }
}

/* Whether every question on a stream is refused so, nothing else is told, and no output is changed. */
static int stream_lacks(const uint8_t *stream, size_t stream_len, uint8_t number, size_t place, uint64_t kind, uint64_t missing)
{
    mark();
    tockplover_counts c = tockplover_stream_count(NESTING, 0, stream, stream_len);
    int right = lacks(c.refusal, number, place, kind, missing) && c.records == 0 && c.known == 0;
    c = tockplover_stream_read(NESTING, 0, stream, stream_len, rows, ROOM);
    right &= lacks(c.refusal, number, place, kind, missing) && c.records == 0 && c.known == 0;
    right &= lacks(tockplover_stream_contains(NESTING, 0, stream, stream_len, 1), number, place, kind, missing);
    tockplover_span v = tockplover_stream_value(NESTING, 0, stream, stream_len, 1);
    return right && lacks(v.refusal, number, place, kind, missing) && v.start == 0 && v.size == 0 && untouched();
}

/* What a radio link has dropped the tail of. */
static void cuts(void)
{
    cut_numbers();
    check("stream 1", stream_lacks(BYTES(1, 0, 0xfe, 0), 1, 2, 0, 3));
    check("stream 4, not begun", stream_lacks(BYTES(1, 0, 3), 4, 2, 3, 1));
    check("stream 4", stream_lacks(BYTES(3, 0xff, 0), 4, 0, 3, 7));
    check("stream 6, no byte", stream_lacks(BYTES(1, 5), 6, 0, 1, 5));
    check("stream 6, some bytes", stream_lacks(BYTES(1, 0, 3, 5, 9, 9), 6, 2, 3, 3));
    check("stream 6, a length of 2^64 - 1", stream_lacks(BYTES(3, 0xff, 0xff, 0xff, 0xff, 0xff, 0xff, 0xff, 0xff, 0xff), 6, 0, 3, UINT64_MAX));
    check("stream 6, less what is there", stream_lacks(BYTES(3, 0xff, 0xff, 0xff, 0xff, 0xff, 0xff, 0xff, 0xff, 0xff, 7), 6, 0, 3, UINT64_MAX - 1));
    /* the inner stream ends where the outer record's value does */
    check("stream 1, nested", stream_lacks(BYTES(6, 1, 0xfd, 7, 0), 1, 2, 0, 2));
    check("stream 4, nested", stream_lacks(BYTES(6, 1, 1, 7, 0), 4, 2, 1, 1));
    check("stream 6, nested", stream_lacks(BYTES(6, 2, 3, 5, 7, 0), 6, 2, 3, 5));

    mark();
    tockplover_size s = tockplover_stream_write(NESTING, 0, NUMBERS(1, 0, 0, 6, 0, 2), BYTES(3, 5), out, ROOM);
    check("stream_write 6, nested", lacks(s.refusal, 6, 1, 6, 5) && s.size == 0 && untouched());
    s = tockplover_stream_write(NESTING, 0, NUMBERS(6, 0, 2), BYTES(0xfd, 1), out, ROOM);
    check("stream_write 1, nested", lacks(s.refusal, 1, 0, 6, 1) && s.size == 0 && untouched());
    s = tockplover_stream_write(NESTING, 0, NUMBERS(6, 0, 1), BYTES(3), out, ROOM);
    check("stream_write 4, nested", lacks(s.refusal, 4, 0, 6, 1) && s.size == 0 && untouched());

    const uint8_t init[] = {0, 16, 0, 0, 0, 0, 3, 7, 1, 127, 0};
    tockplover_message m = tockplover_message_read(init, sizeof init, rows, ROOM);
    check("message_read 6", lacks(m.refusal, 6, 6, 3, 4) && m.outcome == TOCKPLOVER_REFUSED && m.kind == 0 && untouched());
    tockplover_span v = tockplover_message_address(init, sizeof init);
    check("message_address 6", lacks(v.refusal, 6, 6, 3, 4) && v.start == 0 && v.size == 0);
    m = tockplover_message_read(init, 7, rows, ROOM);
    check("message_read 4", lacks(m.refusal, 4, 6, 3, 1) && m.outcome == TOCKPLOVER_REFUSED && untouched());
    m = tockplover_message_read(init, 5, rows, ROOM);
    check("message_read 20, which does not tell", is(m.refusal, 20, 0, 16) && m.outcome == TOCKPLOVER_REFUSED && untouched());

    static const char report[] = "rows 0\nstream 1 refused 6 at 0 type 1 missing 5\nend streams 1 messages 0 invoices 0 refused 1\n";
    s = tockplover_book_report(BYTES(0, 0, 0, 1, 0, 0, 2, 1, 5, 0, 0, 0, 0), out, ROOM);
    check("book_report, a stream cut short", yes(s.refusal) && s.size == sizeof report - 1 && out_is(report, sizeof report - 1));
}

/* Whether a value is no address, and nothing else is told of it. */
static int is_none(tockplover_address a) { return is(a.refusal, 8, 0, 0) && a.kind == 0 && part_is(a.rest, 0, 0); }

static void addresses(void)
{
    const uint8_t ipv4[] = {1, 127, 0, 0, 1, 0x26, 0x07};
    tockplover_address a = tockplover_address_read(ipv4, sizeof ipv4);
    check("address_read", yes(a.refusal) && a.kind == TOCKPLOVER_ADDRESS_IPV4 && part_is(a.rest, 1, 6));
    a = tockplover_address_read(BYTES(5, 1, 'a', 0, 80));
    check("address_read, a name", yes(a.refusal) && a.kind == TOCKPLOVER_ADDRESS_DNS_NAME && part_is(a.rest, 1, 4));
    a = tockplover_address_read(BYTES(9));
    check("address_read, an unknown type", yes(a.refusal) && a.kind == 9 && part_is(a.rest, 1, 0));
    check("address_read 8, no bytes", is_none(tockplover_address_read(NO_BYTES)));
    check("address_read 8, no length of the name", is_none(tockplover_address_read(BYTES(5))));
    check("address_read 8, a name of no bytes", is_none(tockplover_address_read(BYTES(5, 0, 0, 80))));
    check("address_read 8, a name cut short", is_none(tockplover_address_read(BYTES(5, 2, 'a', 0, 80))));
    check("address_read 8, a byte behind the port", is_none(tockplover_address_read(BYTES(5, 1, 'a', 0, 80, 0))));

    const struct {
        const char *name;
        uint8_t kind;
        size_t size;
    } types[] = {
        {"address_read, IPv4", TOCKPLOVER_ADDRESS_IPV4, 6},
        {"address_read, IPv6", TOCKPLOVER_ADDRESS_IPV6, 18},
        {"address_read, Tor v2", TOCKPLOVER_ADDRESS_TOR_V2, 12},
        {"address_read, Tor v3", TOCKPLOVER_ADDRESS_TOR_V3, 37},
    };
    uint8_t value[1 + 64] = {0};
    for (size_t i = 0; i < sizeof types / sizeof *types; i++) {
        int right = 1;
        value[0] = types[i].kind;
        for (size_t size = 0; size <= 64; size++) {
            a = tockplover_address_read(value, 1 + size);
            right &= size == types[i].size ? yes(a.refusal) && a.kind == types[i].kind && part_is(a.rest, 1, size) : is_none(a);
        }
        check(types[i].name, right);
    }

    mark();
    tockplover_size s = tockplover_address_write(TOCKPLOVER_ADDRESS_IPV4, ipv4 + 1, 6, out, ROOM);
    check("address_write", yes(s.refusal) && s.size == 7 && out_is(ipv4, 7));
    mark();
    s = tockplover_address_write(255, NO_BYTES, out, 1);
    check("address_write, an unknown type", yes(s.refusal) && s.size == 1 && out_is("\xff", 1));
    mark();
    s = tockplover_address_write(TOCKPLOVER_ADDRESS_IPV4, ipv4 + 1, 5, out, ROOM);
    check("address_write 8", is(s.refusal, 8, 0, 0) && s.size == 0 && untouched());
    s = tockplover_address_write(TOCKPLOVER_ADDRESS_DNS_NAME, BYTES(0, 0, 80), out, 0);
    check("address_write 8, before 12", is(s.refusal, 8, 0, 0) && s.size == 0 && untouched());
    s = tockplover_address_write(TOCKPLOVER_ADDRESS_IPV4, ipv4 + 1, 6, out, 6);
    check("address_write 12", is(s.refusal, 12, 0, 0) && s.size == 0 && untouched());
}

static void messages(void)
{
    const uint8_t init[] = {
        0x00, 0x10, 0x00, 0x01, 0x0f, 0x00, 0x02, 0x30, 0x40, 0x03, 0x07, 0x01, 0x7f, 0x00, 0x00, 0x01, 0x26, 0x07, 0x05, 0x00};
    const uint64_t index[] = {3, 11, 7, 1, 5, 20, 0, 0};

    mark();
    tockplover_message m = tockplover_message_read(init, sizeof init, rows, ROOM);
    check("message_read init",
        yes(m.refusal) && m.outcome == TOCKPLOVER_ACCEPTED && m.kind == 16 && part_is(m.first, 4, 1) && part_is(m.last, 7, 2) && m.wanted == 0
            && part_is(m.extension, 9, 11) && m.records == 2 && m.known == 1 && rows_are(index, 8));
    uint8_t error[36 + 3] = {0x00, 0x11, [34] = 0x00, 0x03, 'b', 'a', 'd'};
    mark();
    m = tockplover_message_read(error, sizeof error, rows, ROOM);
    check("message_read error",
        yes(m.refusal) && m.outcome == 0 && m.kind == 17 && part_is(m.first, 2, 32) && part_is(m.last, 36, 3) && part_is(m.extension, 39, 0)
            && m.records == 0 && m.known == 0 && untouched());
    error[1] = 1;
    m = tockplover_message_read(error, sizeof error, rows, ROOM);
    check("message_read warning", yes(m.refusal) && m.kind == 1 && part_is(m.first, 2, 32) && part_is(m.last, 36, 3));
    m = tockplover_message_read(BYTES(0x00, 0x12, 0x01, 0x02, 0x00, 0x01, 0x00), rows, ROOM);
    check("message_read ping", yes(m.refusal) && m.kind == 18 && m.wanted == 258 && part_is(m.first, 0, 0) && part_is(m.last, 6, 1));
    m = tockplover_message_read(BYTES(0x00, 0x13, 0x00, 0x01, 0x00), rows, ROOM);
    check("message_read pong", yes(m.refusal) && m.kind == 19 && part_is(m.first, 0, 0) && part_is(m.last, 4, 1) && part_is(m.extension, 5, 0));
    m = tockplover_message_read(BYTES(0x80, 0x01, 0x33), rows, ROOM);
    check("message_read, passed over",
        yes(m.refusal) && m.outcome == TOCKPLOVER_NONE && m.kind == 32769 && part_is(m.first, 0, 0) && part_is(m.last, 0, 0)
            && part_is(m.extension, 0, 0) && untouched());
    m = tockplover_message_read(BYTES(0x00, 0x14), rows, ROOM);
    check("message_read 22", is(m.refusal, 22, 0, 20) && m.outcome == TOCKPLOVER_REFUSED && m.kind == 0 && untouched());
    m = tockplover_message_read(init, sizeof init, rows, 7);
    check("message_read 12", is(m.refusal, 12, 0, 0) && m.outcome == TOCKPLOVER_REFUSED && untouched());
    const uint8_t no_address[] = {0x00, 0x10, 0x00, 0x00, 0x00, 0x00, 0x03, 0x02, 0x05, 0x00};
    m = tockplover_message_read(no_address, sizeof no_address, rows, ROOM);
    check("message_read 8, no address", is(m.refusal, 8, 6, 3) && m.outcome == TOCKPLOVER_REFUSED && untouched());

    tockplover_span v = tockplover_message_address(init, sizeof init);
    check("message_address", yes(v.refusal) && v.start == 11 && v.size == 7);
    v = tockplover_message_address(init, 9);
    check("message_address 15", is(v.refusal, 15, 0, 3) && v.start == 0 && v.size == 0);
    v = tockplover_message_address(BYTES(0x00, 0x13, 0x00, 0x00, 0x03, 0x01, 0x09));
    check("message_address 15, a pong", is(v.refusal, 15, 0, 3) && v.start == 0 && v.size == 0);
    v = tockplover_message_address(BYTES(0x80, 0x01, 0x33));
    check("message_address 15, passed over", is(v.refusal, 15, 0, 3) && v.start == 0 && v.size == 0);
    v = tockplover_message_address(no_address, sizeof no_address);
    check("message_address, the message's refusal", is(v.refusal, 8, 6, 3) && v.start == 0 && v.size == 0);

    mark();
    tockplover_size s = tockplover_message_write(16, BYTES(0x0f), BYTES(0x30, 0x40), 0, NUMBERS(3, 0, 7, 5, 7, 0), init + 11, 7, out, ROOM);
    check("message_write init", yes(s.refusal) && s.size == sizeof init && out_is(init, sizeof init));
    mark();
    s = tockplover_message_write(16, NO_BYTES, NO_BYTES, 0, NUMBERS(3, 0, 6), init + 11, 6, out, ROOM);
    check("message_write 8", is(s.refusal, 8, 0, 3) && s.size == 0 && untouched());
    s = tockplover_message_write(18, NO_BYTES, BYTES(0x00), 258, NO_NUMBERS, NO_BYTES, out, ROOM);
    check("message_write ping", yes(s.refusal) && s.size == 7 && out_is("\x00\x12\x01\x02\x00\x01\x00", 7));
    mark();
    s = tockplover_message_write(17, BYTES(0x00), NO_BYTES, 0, NO_NUMBERS, NO_BYTES, out, ROOM);
    check("message_write 20", is(s.refusal, 20, 0, 17) && s.size == 0 && untouched());

    check("message_group", tockplover_message_group(31) == 1 && tockplover_message_group(512) == 0 && tockplover_message_group(32768) == 5);

    s = tockplover_message_join_features(BYTES(0x01, 0x80), BYTES(0x03), out, ROOM);
    check("message_join_features", yes(s.refusal) && s.size == 2 && out_is("\x01\x83", 2));
    mark();
    s = tockplover_message_join_features(BYTES(0x01, 0x80), BYTES(0x03), out, 1);
    check("message_join_features 12", is(s.refusal, 12, 0, 0) && s.size == 0 && untouched());

    tockplover_reply r = tockplover_message_pong(2, out, ROOM);
    check("message_pong", yes(r.refusal) && r.outcome == TOCKPLOVER_ACCEPTED && r.size == 6 && out_is("\x00\x13\x00\x02\x00\x00", 6));
    mark();
    r = tockplover_message_pong(65532, out, ROOM);
    check("message_pong, none", yes(r.refusal) && r.outcome == TOCKPLOVER_NONE && r.size == 0 && untouched());
    r = tockplover_message_pong(65531, out, ROOM);
    check("message_pong 12", is(r.refusal, 12, 0, 0) && r.outcome == TOCKPLOVER_REFUSED && r.size == 0 && untouched());
}

/* Tenths of a millisatoshi are refused, and 0 is told only where there is no amount. */
static void amounts(void)
{
    static uint8_t groups[ROOM];
    const struct {
        const char *name, *text;
        uint8_t number, asked;
        uint64_t msat;
    } lines[] = {
        {"invoice_read 10p", "lnbc10p1pvjluezpp5qqqsyqcyq5rqwzqfqqqsyqcyq5rqwzqfqqqsyqcyq5rqwzqfqypqdq5xysxxatsyp3k7enxv4jsaztrnwn"
              "gzn3kdzw5hydlzf03qdgm2hdq27cqv3agm2awhz5se903vruatfhq77w3ls4evs3ch9zw97j25emudupq63nyw24cg27h2rspe6ghp6",
            0, 1, 1},
        {"invoice_read 15p", "lnbc15p1pvjluezpp5qqqsyqcyq5rqwzqfqqqsyqcyq5rqwzqfqqqsyqcyq5rqwzqfqypqdq5xysxxatsyp3k7enxv4jsaztrnwn"
              "gzn3kdzw5hydlzf03qdgm2hdq27cqv3agm2awhz5se903vruatfhq77w3ls4evs3ch9zw97j25emudupq63nyw24cg27h2rspjr6zux",
            37, 0, 0},
        {"invoice_read 5p", "lnbc5p1pvjluezpp5qqqsyqcyq5rqwzqfqqqsyqcyq5rqwzqfqqqsyqcyq5rqwzqfqypqdq5xysxxatsyp3k7enxv4jsaztrnwng"
              "zn3kdzw5hydlzf03qdgm2hdq27cqv3agm2awhz5se903vruatfhq77w3ls4evs3ch9zw97j25emudupq63nyw24cg27h2rsp3jt7lj",
            37, 0, 0},
        {"invoice_read, no amount", "lnbc1pvjluezpp5qqqsyqcyq5rqwzqfqqqsyqcyq5rqwzqfqqqsyqcyq5rqwzqfqypqdq5xysxxatsyp3k7enxv4jsaztrnwngzn"
              "3kdzw5hydlzf03qdgm2hdq27cqv3agm2awhz5se903vruatfhq77w3ls4evs3ch9zw97j25emudupq63nyw24cg27h2rspleug35",
            0, 0, 0},
    };
    for (size_t i = 0; i < sizeof lines / sizeof *lines; i++) {
        tockplover_invoice v = tockplover_invoice_read((const uint8_t *)lines[i].text, strlen(lines[i].text), groups, ROOM, rows, ROOM);
        check(lines[i].name, is(v.refusal, lines[i].number, 0, 0) && v.asked == lines[i].asked && v.msat == lines[i].msat);
    }
    mark();
    const struct {
        const char *name, *amount;
    } refused[] = {
        {"invoice_write 15P", "15P"},
        {"invoice_write 5p", "5p"},
        {"invoice_write 9999999999999999999p", "9999999999999999999p"},
    };
    for (size_t i = 0; i < sizeof refused / sizeof *refused; i++) {
        const char *amount = refused[i].amount;
        tockplover_size s = tockplover_invoice_write(1, (const uint8_t *)amount, strlen(amount), 0, groups, 0, groups, 0, out, ROOM);
        check(refused[i].name, is(s.refusal, 37, 0, 0) && s.size == 0 && untouched());
    }
}

static void invoices(void)
{
    /* BOLT 11: $24 for an entire list of things, with extra routing information of two entries */
    const char *text = "lnbc20m1pvjluezpp5qqqsyqcyq5rqwzqfqqqsyqcyq5rqwzqfqqqsyqcyq5rqwzqfqypqhp58yjmdan79s6qqdhdzgynm4zwqd5d7xmw5fk98"
                       "klysy043l2ahrqsfpp3qjmp7lwpagxun9pygexvgpjdc4jdj85fr9yq20q82gphp2nflc7jtzrcazrra7wwgzxqc8u7754cdlpfrmccae92qgz"
                       "qvzq2ps8pqqqqqqqqqqqq9qqqvpeuqafqxu92d8lr6fvg0r5gv0heeeqgcrqlnm6jhphu9y00rrhy4grqszsvpcgpy9qqqqqqqqqqqq7qqzqfn"
                       "lkwydm8rg30gjku7wmxmk06sevjp53fmvrcfegvwy7d5443jvyhxsel0hulkstws7vqv400q4j3wgpk4crg49682hr4scqvmad43cqd5m7tf";
    const uint8_t *bytes = (const uint8_t *)text;
    size_t size = strlen(text);
    static uint8_t groups[ROOM];

    mark();
    tockplover_invoice v = tockplover_invoice_read(bytes, size, groups, ROOM, rows, ROOM);
    check("invoice_read",
        yes(v.refusal) && v.prefix == 1 && v.asked == 1 && part_is(v.amount, 4, 3) && v.msat == 2000000000 && v.time == 1496314658
            && v.groups == size - 8 - 6 && v.fields == 4 && v.payment == 0 && v.expiry == 3600 && v.delta == 9);
    check("invoice_read, the groups", groups[0] == 1 && groups[7] == 1 && groups[v.groups - 1] == 0);
    uint64_t h[3], r[3];
    memcpy(h, rows + 3, sizeof h);
    memcpy(r, rows + 9, sizeof r);
    check("invoice_read, the fields", rows[0] == 1 && rows[1] == 10 && rows[2] == 52 && h[0] == 23 && r[0] == 3 && r[2] == 164);
    const size_t count = v.groups, signature = count - 104;

    tockplover_size s = tockplover_invoice_write(1, bytes + 4, 3, v.time, groups + 7, signature - 7, groups + signature, 104, out, ROOM);
    check("invoice_write", yes(s.refusal) && s.size == size && out_is(text, size));
    mark();
    s = tockplover_invoice_write(3, bytes + 4, 3, 0, groups + 7, signature - 7, groups + signature, 104, out, ROOM);
    check("invoice_write 36", is(s.refusal, 36, 0, 0) && s.size == 0 && untouched());

    memset(rows, MARK, sizeof rows);
    v = tockplover_invoice_read(bytes, size - 1, out, ROOM, rows, ROOM);
    check("invoice_read 35",
        is(v.refusal, 35, 0, 0) && v.prefix == 0 && v.asked == 0 && part_is(v.amount, 0, 0) && v.msat == 0 && v.groups == 0 && v.expiry == 0
            && untouched());
    v = tockplover_invoice_read(bytes, size, out, ROOM, rows, 11);
    check("invoice_read 12, the index", is(v.refusal, 12, 0, 0) && untouched());
    v = tockplover_invoice_read(bytes, size, out, 100, rows, ROOM);
    check("invoice_read 12, the groups", is(v.refusal, 12, 0, 0) && untouched());

    s = tockplover_invoice_field_bytes(groups, count, h[1], h[2], out, ROOM);
    check("invoice_field_bytes", yes(s.refusal) && s.size == 32
            && out_is("\x39\x25\xb6\xf6\x7e\x2c\x34\x00\x36\xed\x12\x09\x3d\xd4\x4e\x03\x68\xdf\x1b\x6e\xa2\x6c\x53\xdb\xe4\x81\x1f\x58\xfd\x5d\xb8\xc1", 32));
    check("invoice_field_bytes 16", is(tockplover_invoice_field_bytes(groups, 20, 10, 52, out, ROOM).refusal, 16, 0, 0));
    check("invoice_field_bytes 34", is(tockplover_invoice_field_bytes(BYTES(1, 2, 32), 1, 2, out, ROOM).refusal, 34, 2, 0));
    tockplover_value n = tockplover_invoice_field_number(BYTES(9, 1, 28), 1, 2);
    check("invoice_field_number", yes(n.refusal) && n.value == 60);
    check("invoice_field_number 38", is(tockplover_invoice_field_number(groups, count, 10, 13).refusal, 38, 0, 0));

    n = tockplover_invoice_route_size(groups, count, r[0], r[1], r[2]);
    check("invoice_route_size", yes(n.refusal) && n.value == 2);
    check("invoice_route_size, no route", tockplover_invoice_route_size(groups, count, r[0], 10, 52).value == 0);
    check("invoice_route_size, a d", tockplover_invoice_route_size(groups, count, 13, r[1], r[2]).value == 0);
    uint8_t key[TOCKPLOVER_KEY_SIZE + 1] = {[TOCKPLOVER_KEY_SIZE] = MARK};
    tockplover_entry e = tockplover_invoice_route_entry(groups, count, r[0], r[1], r[2], 1, key, TOCKPLOVER_KEY_SIZE);
    check("invoice_route_entry",
        yes(e.refusal) && e.outcome == TOCKPLOVER_ACCEPTED && e.channel == UINT64_C(0x030405060708090a) && e.fee == 30 && e.delta == 4);
    check("invoice_route_entry, the key", key[0] == 0x03 && key[1] == 0x9e && key[32] == 0x55 && key[33] == MARK);
    mark();
    e = tockplover_invoice_route_entry(groups, count, r[0], r[1], r[2], 2, out, ROOM);
    check("invoice_route_entry, none", yes(e.refusal) && e.outcome == TOCKPLOVER_NONE && e.channel == 0 && e.fee == 0 && e.delta == 0 && untouched());
    e = tockplover_invoice_route_entry(groups, count, 13, r[1], r[2], 1, out, ROOM);
    check("invoice_route_entry, a d", yes(e.refusal) && e.outcome == TOCKPLOVER_NONE && e.channel == 0 && e.fee == 0 && e.delta == 0 && untouched());
    e = tockplover_invoice_route_entry(groups, 9, r[0], 8, 2, 0, out, ROOM);
    check("invoice_route_entry 16", is(e.refusal, 16, 0, 0) && e.outcome == TOCKPLOVER_REFUSED && untouched());

    s = tockplover_invoice_field_from_bytes(13, BYTES(0xff), out, ROOM);
    check("invoice_field_from_bytes", yes(s.refusal) && s.size == 5 && out_is("\x0d\x00\x02\x1f\x1c", 5));
    mark();
    check("invoice_field_from_bytes 34", is(tockplover_invoice_field_from_bytes(32, BYTES(0xff), out, ROOM).refusal, 34, 0, 0) && untouched());
    s = tockplover_invoice_field_from_number(6, 60, out, ROOM);
    check("invoice_field_from_number", yes(s.refusal) && s.size == 5 && out_is("\x06\x00\x02\x01\x1c", 5));
    mark();
    check("invoice_field_from_number 12", is(tockplover_invoice_field_from_number(6, 60, out, 4).refusal, 12, 0, 0) && untouched());
}

/* Whether a profile has these rules, as many as are not 0, and no others. */
static int profile_is(tockplover_profile p, const uint8_t *rules)
{
    size_t count = 0;
    while (count < TOCKPLOVER_RULES && rules[count] != 0)
        count++;
    return yes(p.refusal) && p.count == count && memcmp(p.rules, rules, TOCKPLOVER_RULES) == 0;
}

/* Whether an invoice is refused so, and nothing else is told of it. */
static int is_unjudged(tockplover_profile p, uint8_t number, size_t place)
{
    const uint8_t none[TOCKPLOVER_RULES] = {0};
    return is(p.refusal, number, place, 0) && p.count == 0 && memcmp(p.rules, none, TOCKPLOVER_RULES) == 0;
}

/* The same text in upper case. */
static void make_upper(uint8_t *text, size_t size)
{
    for (size_t i = 0; i < size; i++)
        if (text[i] >= 'a' && text[i] <= 'z')
            text[i] -= 'a' - 'A';
}

/* A field of zero groups, the last of which is given. */
typedef struct {
    uint8_t kind, size, last;
} till_field;

/* The length of an invoice of an amount and these fields, up to one of type 0, which is put there. */
static size_t till_invoice(const char *amount, const till_field *fields, uint8_t *text, size_t text_len)
{
    uint8_t groups[1000] = {0};
    const uint8_t signature[TOCKPLOVER_SIGNATURE_GROUPS] = {0};
    size_t size = 0;
    for (; fields->kind != 0; fields++) {
        groups[size] = fields->kind;
        groups[size + 1] = fields->size / 32;
        groups[size + 2] = fields->size % 32;
        size += 3 + fields->size;
        if (fields->size > 0)
            groups[size - 1] = fields->last;
    }
    return tockplover_invoice_write(
        TOCKPLOVER_PREFIX_LNBC, (const uint8_t *)amount, strlen(amount), 0, groups, size, signature, sizeof signature, text, text_len).size;
}

static void tills(void)
{
    /* the first field is a usable p */
    const struct {
        const char *name, *amount;
        till_field fields[7];
        uint8_t rules[TOCKPLOVER_RULES];
    } lines[] = {
        {"till_profile", "", {{1, 52, 0}, {13, 0, 0}}, {0}},
        {"till_profile, a hash of the description", "1m", {{1, 52, 0}, {23, 52, 0}}, {0}},
        {"till_profile, every type", "10n", {{1, 52, 0}, {13, 2, 4}, {6, 1, 1}, {24, 0, 0}, {19, 53, 0}, {3, 82, 0}}, {0}},
        {"till_profile 1", "", {{1, 52, 0}, {1, 52, 0}, {13, 0, 0}}, {1}},
        {"till_profile, an unusable p", "", {{1, 52, 0}, {1, 51, 1}, {13, 0, 0}}, {0}},
        {"till_profile 2, no description", "", {{1, 52, 0}}, {2}},
        {"till_profile 2, two", "", {{1, 52, 0}, {13, 0, 0}, {13, 0, 0}}, {2}},
        {"till_profile 2, a d and an h", "", {{1, 52, 0}, {13, 0, 0}, {23, 52, 0}}, {2}},
        {"till_profile 3, x", "", {{1, 52, 0}, {13, 0, 0}, {6, 0, 0}, {6, 1, 1}}, {3}},
        {"till_profile 3, c", "", {{1, 52, 0}, {13, 0, 0}, {24, 1, 1}, {24, 1, 1}}, {3}},
        {"till_profile 3, n", "", {{1, 52, 0}, {13, 0, 0}, {19, 53, 0}, {19, 53, 0}}, {3}},
        {"till_profile 4, p", "", {{1, 52, 8}, {13, 0, 0}}, {4}},
        {"till_profile 4, h", "", {{1, 52, 0}, {23, 52, 1}}, {4}},
        {"till_profile 4, n", "", {{1, 52, 0}, {13, 0, 0}, {19, 53, 1}}, {4}},
        {"till_profile 4, r", "", {{1, 52, 0}, {13, 0, 0}, {3, 82, 2}}, {4}},
        {"till_profile 4, a spare group of r", "", {{1, 52, 0}, {13, 0, 0}, {3, 83, 0}}, {4}},
        {"till_profile 4, d", "", {{1, 52, 0}, {13, 2, 1}}, {4}},
        {"till_profile 4, a spare group of d", "", {{1, 52, 0}, {13, 1, 0}}, {4}},
        {"till_profile 5, x", "", {{1, 52, 0}, {13, 0, 0}, {6, 1, 0}}, {5}},
        {"till_profile 5, c", "", {{1, 52, 0}, {13, 0, 0}, {24, 2, 1}}, {5}},
        {"till_profile, too long a number", "", {{1, 52, 0}, {13, 0, 0}, {6, 13, 1}, {24, 13, 1}}, {0}},
        {"till_profile 6", "1000u", {{1, 52, 0}, {13, 0, 0}}, {6}},
        {"till_profile 6, p", "1000p", {{1, 52, 0}, {13, 0, 0}}, {6}},
        {"till_profile, 100p", "100p", {{1, 52, 0}, {13, 0, 0}}, {0}},
        {"till_profile, 21000000", "21000000", {{1, 52, 0}, {13, 0, 0}}, {0}},
        {"till_profile, all rules", "1000000n", {{1, 52, 0}, {1, 52, 1}, {6, 1, 0}, {6, 1, 0}}, {1, 2, 3, 4, 5, 6}},
    };
    uint8_t text[600];
    size_t size = 0;
    for (size_t i = 0; i < sizeof lines / sizeof *lines; i++) {
        size = till_invoice(lines[i].amount, lines[i].fields, text, sizeof text);
        int right = profile_is(tockplover_till_profile(text, size), lines[i].rules);
        make_upper(text, size);
        check(lines[i].name, right && profile_is(tockplover_till_profile(text, size), lines[i].rules));
    }

    /* the last of them, wrong in other ways too */
    text[size - 1] = text[size - 1] == 'Q' ? 'P' : 'Q';
    check("till_profile 35", is_unjudged(tockplover_till_profile(text, size), 35, 0));
    text[size - 1] = 'B';
    check("till_profile 34", is_unjudged(tockplover_till_profile(text, size), 34, size - 1));
    text[0] = 'l';
    check("till_profile 32", is_unjudged(tockplover_till_profile(text, size), 32, 0));
    text[1] = ' ';
    check("till_profile 31", is_unjudged(tockplover_till_profile(text, size), 31, 1));
    check("till_profile 33", is_unjudged(tockplover_till_profile(NO_BYTES), 33, 0));
    mark();
    check("till_profile 30", is_unjudged(tockplover_till_profile(out, TOCKPLOVER_INVOICE_MOST + 1), 30, 0));
}

static void books(void)
{
    const char *report = "rows 0\nmessage 1 passed over type 21\nend streams 0 messages 1 invoices 0 refused 0\n";
    mark();
    tockplover_size s = tockplover_book_report(BYTES(0, 0, 0, 0, 0, 1, 0, 2, 0, 21, 0, 0), out, ROOM);
    check("book_report", yes(s.refusal) && s.size == strlen(report) && out_is(report, s.size));
    const char *with_address = "rows 0\nmessage 1 ok type 16 extension 1 address 1 7f0000012607\nend streams 0 messages 1 invoices 0 refused 0\n";
    mark();
    s = tockplover_book_report(BYTES(0, 0, 0, 0, 0, 1, 0, 15, 0, 16, 0, 0, 0, 0, 3, 7, 1, 127, 0, 0, 1, 0x26, 0x07, 0, 0), out, ROOM);
    check("book_report, an address", yes(s.refusal) && s.size == strlen(with_address) && out_is(with_address, s.size));
    mark();
    s = tockplover_book_report(BYTES(0), out, ROOM);
    check("book_report, a bad book", yes(s.refusal) && s.size == 16 && out_is("book refused 70\n", 16));
    mark();
    s = tockplover_book_report(BYTES(0), out, 15);
    check("book_report 12", is(s.refusal, 12, 0, 0) && s.size == 0 && untouched());
}

/* Whether the figures have these rows at their front, and these numbers. */
static int figures_are(
    tockplover_figures f, uint64_t books, uint64_t pairs, const uint64_t *numbers, size_t count, uint64_t invoices, uint64_t unpriced,
    uint64_t high, uint64_t low)
{
    return memcmp(f.rows, numbers, count * sizeof *numbers) == 0 && f.books == books && f.pairs == pairs && f.invoices == invoices && f.unpriced == unpriced && f.sum.high == high && f.sum.low == low;
}

/* Whether the figures are none: 513 rows, and all other numbers 0. */
static int figures_are_none(tockplover_figures f)
{
    for (size_t i = 0; i < sizeof f.rows / sizeof *f.rows; i++)
        if (f.rows[i] != 0)
            return 0;
    return figures_are(f, 0, 513, NO_NUMBERS, 0, 0, 0, 0);
}

/* A book without rows and messages: a stream in namespace 0 of so many records without a value, of the odd types from 301 on. */
static size_t odd_types(uint16_t records, uint8_t *book)
{
    const uint8_t head[] = {0, 0, 0, 1, 0, (uint8_t)(4 * records >> 8), (uint8_t)(4 * records)};
    uint8_t *at = book + sizeof head;
    memcpy(book, head, sizeof head);
    for (uint16_t i = 0; i < records; i++) {
        const uint16_t kind = 301 + 2 * i;
        const uint8_t record[] = {0xfd, (uint8_t)(kind >> 8), (uint8_t)kind, 0};
        memcpy(at, record, sizeof record);
        at += sizeof record;
    }
    memset(at, 0, 4);
    return (size_t)(at - book) + 4;
}

/* The length of a book with one invoice of an amount, which is put there. */
static size_t priced(const char *amount, uint8_t *book)
{
    const uint8_t hash[32] = {0}, signature[104] = {0};
    uint8_t field[55];
    tockplover_invoice_field_from_bytes(1, hash, 32, field, sizeof field);
    const size_t size =
        tockplover_invoice_write(1, (const uint8_t *)amount, strlen(amount), 0, field, sizeof field, signature, 104, book + 10, 300).size;
    const uint8_t head[] = {0, 0, 0, 0, 0, 0, 0, 1, (uint8_t)(size >> 8), (uint8_t)size};
    memcpy(book, head, sizeof head);
    return sizeof head + size;
}

static void months(void)
{
    static uint8_t book[4096];
    tockplover_figures f = tockplover_month_empty();
    check("month_empty", figures_are(f, 0, 0, NO_NUMBERS, 0, 0, 0, 0));

    /* type 1 known in the first book, passed over in the second, with a refused stream beside it */
    uint8_t known[34] = {[1] = 1, [17] = 1, [25] = 2, [33] = 8};
    memcpy(book, known, sizeof known);
    memcpy(book + sizeof known, (const uint8_t[]){0, 1, 0, 0, 3, 1, 1, 42, 0, 0, 0, 0}, 12);
    tockplover_added a = tockplover_month_add(f, book, sizeof known + 12);
    check("month_add", yes(a.refusal) && figures_are(a.figures, 1, 1, NUMBERS(0, 1, 1, 1, 0, 0, 2), 0, 0, 0, 0));
    a = tockplover_month_add(a.figures, BYTES(0, 0, 0, 2, 7, 0, 7, 1, 0, 0xfd, 1, 1, 1, 9, 0, 0, 2, 2, 0, 0, 0, 0, 0));
    check("month_add, another namespace",
        yes(a.refusal) && figures_are(a.figures, 2, 3, NUMBERS(0, 1, 1, 1, 0, 0, 2, 7, 1, 0, 0, 1, 0, 2, 7, 257, 0, 0, 1, 1, 4), 0, 0, 0, 0));
    f = a.figures;
    a = tockplover_month_add(f, BYTES(0));
    check("month_add 70",
        is(a.refusal, 70, 0, 0) && a.figures.books == 3 && a.figures.pairs == 3 && memcmp(a.figures.rows, f.rows, sizeof f.rows) == 0);
    f.books = TOCKPLOVER_BOOKS_MOST;
    a = tockplover_month_add(f, BYTES(0));
    check("month_add 76", is(a.refusal, 76, 0, 0) && memcmp(&a.figures, &f, sizeof f) == 0);

    a = tockplover_month_add(tockplover_month_empty(), book, odd_types(512, book));
    check("month_add, 512 pairs",
        yes(a.refusal) && a.figures.books == 1 && a.figures.pairs == TOCKPLOVER_PAIRS_MOST && a.figures.rows[7 * 511 + 1] == 1323);
    a = tockplover_month_add(a.figures, BYTES(0, 0, 0, 1, 0, 0, 2, 1, 0, 0, 0, 0, 0));
    check("month_add 73", is(a.refusal, 73, 0, 0) && figures_are_none(a.figures));
    a = tockplover_month_add(a.figures, BYTES(0, 0, 0, 0, 0, 0, 0, 0));
    check("month_add 73, a later book", is(a.refusal, 73, 0, 0) && figures_are_none(a.figures));
    f.rows[7] = 0;
    a = tockplover_month_add(f, BYTES(0));
    check("month_add 73, altered rows", is(a.refusal, 73, 0, 0) && figures_are_none(a.figures));

    a.figures = tockplover_month_empty();
    size_t size = priced("21000000", book);
    for (int i = 0; i < 9; i++)
        a = tockplover_month_add(a.figures, book, size);
    a = tockplover_month_add(a.figures, book, priced("", book));
    check("month_add, invoices",
        yes(a.refusal) && figures_are(a.figures, 10, 0, NO_NUMBERS, 10, 1, 1, UINT64_C(453255926290448384)));
    const tockplover_halves sum = a.figures.sum;
    tockplover_satoshi s = tockplover_month_satoshi(sum.high, sum.low);
    check("month_satoshi", s.outcome == TOCKPLOVER_ACCEPTED && s.satoshi.high == 0 && s.satoshi.low == UINT64_C(18900000000000000));
    s = tockplover_month_satoshi(sum.high, sum.low + 1);
    check("month_satoshi, none", s.outcome == TOCKPLOVER_NONE && s.satoshi.high == 0 && s.satoshi.low == 0);
    s = tockplover_month_satoshi(UINT64_MAX, UINT64_MAX - 455);
    check("month_satoshi, the greatest",
        s.outcome == 0 && s.satoshi.high == UINT64_C(18446744073709551) && s.satoshi.low == UINT64_C(11363194349405083795));

    mark();
    tockplover_size d = tockplover_month_decimal(sum.high, sum.low, out, ROOM);
    check("month_decimal", yes(d.refusal) && d.size == 20 && out_is("18900000000000000000", 20));
    mark();
    d = tockplover_month_decimal(UINT64_MAX, UINT64_MAX, out, TOCKPLOVER_DECIMAL_MOST);
    check("month_decimal, the greatest", yes(d.refusal) && d.size == 39 && out_is("340282366920938463463374607431768211455", 39));
    mark();
    d = tockplover_month_decimal(0, 10, out, 1);
    check("month_decimal 12", is(d.refusal, 12, 0, 0) && d.size == 0 && untouched());
}

static int changes_are(tockplover_changes c, size_t moved, size_t dropped, size_t respelled, size_t cut)
{
    return c.moved == moved && c.dropped == dropped && c.respelled == respelled && c.cut == cut;
}

/* Whether a mended stream is refused so, nothing else is told, and no output is changed. */
static int mending_is(tockplover_mended m, uint8_t number, size_t place, uint64_t kind)
{
    return is(m.refusal, number, place, kind) && m.size == 0 && changes_are(m.changes, 0, 0, 0, 0) && untouched();
}

static void menders(void)
{
    static uint8_t old[65536];

    /* types 5, 1, 3 with a long spelling each, type 1 again, and half a record */
    const uint8_t faulty[] = {0xfd, 0, 5, 1, 9, 1, 0xfd, 0, 1, 42, 3, 0xfe, 0, 0, 0, 0, 1, 1, 42, 7, 4, 0}, right[] = {1, 1, 42, 3, 0, 5, 1, 9};
    mark();
    tockplover_mended m = tockplover_mend(faulty, sizeof faulty, out, ROOM);
    check("mend", yes(m.refusal) && m.size == 8 && out_is(right, 8) && changes_are(m.changes, 3, 1, 3, 3));
    mark();
    m = tockplover_mend(right, sizeof right, out, sizeof right);
    check("mend, a right stream", yes(m.refusal) && m.size == 8 && out_is(right, 8) && changes_are(m.changes, 0, 0, 0, 0));
    mark();
    m = tockplover_mend(BYTES(3, 0, 2, 0, 1, 0), out, ROOM);
    check("mend, falling types", yes(m.refusal) && m.size == 6 && out_is("\x01\x00\x02\x00\x03\x00", 6) && changes_are(m.changes, 2, 0, 0, 0));
    mark();
    m = tockplover_mend(NO_BYTES, out, 0);
    check("mend, no bytes", yes(m.refusal) && m.size == 0 && untouched() && changes_are(m.changes, 0, 0, 0, 0));
    m = tockplover_mend(BYTES(1, 0xff, 0xff, 0xff, 0xff, 0xff, 0xff, 0xff, 0xff, 0xff, 0), out, ROOM);
    check("mend, a length of 2^64 - 1", yes(m.refusal) && m.size == 0 && untouched() && changes_are(m.changes, 0, 0, 0, 11));

    check("mend 12", mending_is(tockplover_mend(faulty, sizeof faulty, out, 7), 12, 0, 0));
    check("mend 80", mending_is(tockplover_mend(BYTES(3, 0, 1, 1, 9, 1, 1, 8, 3, 1, 0), out, ROOM), 80, 5, 1));
    check("mend 80, before 12", mending_is(tockplover_mend(BYTES(3, 0, 3, 1, 9), out, 0), 80, 2, 3));
    for (size_t i = 0; i < sizeof old; i += 2)
        old[i] = 200;
    check("mend 14", mending_is(tockplover_mend(old, 65536, out, ROOM), 14, 0, 0));
    m = tockplover_mend(old, TOCKPLOVER_STREAM_MOST, out, ROOM);
    check("mend, the most copies", yes(m.refusal) && m.size == 2 && out_is("\xc8\x00", 2) && changes_are(m.changes, 0, 32766, 0, 1));
}

int main(void)
{
    versions();
    numbers();
    tables();
    streams();
    cuts();
    addresses();
    messages();
    amounts();
    invoices();
    tills();
    books();
    months();
    menders();
    printf("%u passed, %u failed\n", passed, failed);
    return failed != 0;
}
