/* Reads and writes a record stream, a message with an address and an invoice through the header beside it, adds recording books to month-end figures,
 * mends a stream of the old gateway, and prints what it is told. */
#include "tockplover.h"

#include <inttypes.h>
#include <stdio.h>
#include <string.h>

/* BOLT 1's test namespace n1, as namespace 0. */
static const uint64_t table[] = {
    0, 1, 2, 8, /* an integer of at most 8 bytes */
    0, 2, 1, 8, /* exactly 8 bytes */
    0, 3, 4, 16, /* a point, then 16 bytes */
    0, 254, 1, 2, /* exactly 2 bytes */
};
static const size_t table_len = sizeof table / sizeof *table;

static void print_refusal(tockplover_refusal r)
{
    printf("refused %u at %zu type %" PRIu64, r.number, r.place, r.kind);
    if (r.missing != 0)
        printf(" missing %" PRIu64, r.missing);
    printf(": %s\n", tockplover_meaning(r.number));
    printf("  what to do: %s\n", tockplover_advice(r.number));
}

static void print_hex(const char *name, const uint8_t *bytes, size_t size)
{
    printf("%s ", name);
    for (size_t i = 0; i < size; i++)
        printf("%02x", bytes[i]);
    printf("\n");
}

/* Prints a text that somebody else wrote; what a terminal might obey is printed as a dot. */
static void print_text(const char *name, const uint8_t *bytes, size_t size)
{
    printf("%s ", name);
    for (size_t i = 0; i < size; i++)
        putchar(bytes[i] >= 32 && bytes[i] < 127 ? bytes[i] : '.');
    printf("\n");
}

static void print_rows(const uint64_t *index, size_t records)
{
    for (size_t i = 0; i < records; i++) {
        const uint64_t *row = index + 4 * i;
        printf("  record type %" PRIu64 " start %" PRIu64 " size %" PRIu64 " known %" PRIu64 "\n", row[0], row[1], row[2], row[3]);
    }
}

static void read_stream(const uint8_t *stream, size_t stream_len)
{
    uint64_t index[64];
    tockplover_counts counts = tockplover_stream_read(table, table_len, 0, stream, stream_len, index, 64);
    printf("stream ");
    if (counts.refusal.number != 0) {
        print_refusal(counts.refusal);
        return;
    }
    printf("ok records %zu known %zu\n", counts.records, counts.known);
    print_rows(index, counts.records);
    tockplover_span value = tockplover_stream_value(table, table_len, 0, stream, stream_len, 1);
    if (value.refusal.number == TOCKPLOVER_TYPE_ABSENT)
        printf("  no record of type 1\n");
    else
        print_hex("  value of type 1:", stream + value.start, value.size);
}

static void write_stream(void)
{
    const uint8_t source[] = {0xff, 0x26, 0x02, 0x2a};
    const uint64_t triples[] = {1, 1, 2, 254, 0, 2, 255, 3, 1};
    uint8_t out[64];
    tockplover_size written = tockplover_stream_write(table, table_len, 0, triples, 9, source, sizeof source, out, sizeof out);
    if (written.refusal.number != 0) {
        print_refusal(written.refusal);
        return;
    }
    print_hex("written:", out, written.size);
    read_stream(out, written.size);
}

/* Shows the address of an init, where it has one. */
static void print_address(const uint8_t *message, size_t size)
{
    tockplover_span value = tockplover_message_address(message, size);
    if (value.refusal.number == TOCKPLOVER_TYPE_ABSENT)
        return;
    const uint8_t *descriptor = message + value.start;
    tockplover_address address = tockplover_address_read(descriptor, value.size);
    const uint8_t *rest = descriptor + address.rest.start, *port = descriptor + value.size - 2;
    switch (address.kind) {
    case TOCKPLOVER_ADDRESS_IPV4:
        printf("  address: %u.%u.%u.%u\n", rest[0], rest[1], rest[2], rest[3]);
        printf("  port: %u\n", port[0] << 8 | port[1]);
        break;
    case TOCKPLOVER_ADDRESS_DNS_NAME:
        print_text("  address:", rest + 1, rest[0]);
        printf("  port: %u\n", port[0] << 8 | port[1]);
        break;
    default:
        print_hex("  address of another type:", descriptor, value.size);
    }
}

static void read_message(const uint8_t *bytes, size_t size)
{
    uint64_t index[64];
    tockplover_message m = tockplover_message_read(bytes, size, index, 64);
    printf("message ");
    if (m.outcome == TOCKPLOVER_REFUSED) {
        print_refusal(m.refusal);
        return;
    }
    if (m.outcome == TOCKPLOVER_NONE) {
        printf("passed over type %" PRIu64 "\n", m.kind);
        return;
    }
    printf("ok type %" PRIu64 " wanted %" PRIu64 " records %zu known %zu\n", m.kind, m.wanted, m.records, m.known);
    print_hex("  first:", bytes + m.first.start, m.first.size);
    print_hex("  last:", bytes + m.last.start, m.last.size);
    print_hex("  extension:", bytes + m.extension.start, m.extension.size);
    print_rows(index, m.records);
    print_address(bytes, size);
}

/* Writes an init with an address of a type. */
static void write_message(uint8_t kind, const uint8_t *rest, size_t rest_len)
{
    const uint8_t features[] = {0x02, 0x01};
    uint8_t address[64], out[128];
    tockplover_size descriptor = tockplover_address_write(kind, rest, rest_len, address, sizeof address);
    if (descriptor.refusal.number != 0) {
        printf("address ");
        print_refusal(descriptor.refusal);
        return;
    }
    const uint64_t triples[] = {3, 0, descriptor.size};
    tockplover_size written = tockplover_message_write(
        TOCKPLOVER_MESSAGE_INIT, NULL, 0, features, sizeof features, 0, triples, 3, address, descriptor.size, out, sizeof out);
    if (written.refusal.number != 0) {
        print_refusal(written.refusal);
        return;
    }
    print_hex("written:", out, written.size);
    read_message(out, written.size);
}

static void answer_ping(uint64_t wanted)
{
    uint8_t out[32];
    tockplover_reply reply = tockplover_message_pong(wanted, out, sizeof out);
    if (reply.outcome == TOCKPLOVER_NONE)
        printf("no pong for %" PRIu64 " bytes\n", wanted);
    else if (reply.outcome == TOCKPLOVER_REFUSED)
        print_refusal(reply.refusal);
    else
        print_hex("pong:", out, reply.size);
}

/* Shows each hop of a route. */
static void print_route(const uint8_t *groups, size_t groups_len, const uint64_t *row)
{
    tockplover_value hops = tockplover_invoice_route_size(groups, groups_len, row[0], row[1], row[2]);
    for (uint64_t k = 0; k < hops.value; k++) {
        uint8_t key[TOCKPLOVER_KEY_SIZE];
        tockplover_entry hop = tockplover_invoice_route_entry(groups, groups_len, row[0], row[1], row[2], k, key, sizeof key);
        printf("    hop %" PRIu64 " channel %016" PRIx64 " fee %" PRIu64 " delta %u", k, hop.channel, hop.fee, hop.delta);
        print_hex(" key", key, sizeof key);
    }
}

/* Shows a field: its row of the index is its type, the first group of its content and its group count. */
static void print_field(const uint8_t *groups, size_t groups_len, const uint64_t *row)
{
    uint8_t bytes[TOCKPLOVER_FIELD_MOST];
    tockplover_size content = tockplover_invoice_field_bytes(groups, groups_len, row[1], row[2], bytes, sizeof bytes);
    printf("  field %" PRIu64 " groups %" PRIu64 "\n", row[0], row[2]);
    switch (row[0]) {
    case TOCKPLOVER_FIELD_DESCRIPTION:
        print_text("    description:", bytes, content.size);
        break;
    case TOCKPLOVER_FIELD_DESCRIPTION_HASH:
        print_hex("    hash of the description:", bytes, content.size);
        break;
    case TOCKPLOVER_FIELD_ROUTE:
        print_route(groups, groups_len, row);
        break;
    }
}

/* Reads an invoice, shows its fields, and writes it back from what was read. */
static void read_invoice(const char *text)
{
    static uint8_t groups[TOCKPLOVER_INVOICE_MOST], out[TOCKPLOVER_INVOICE_MOST];
    static uint64_t index[TOCKPLOVER_INVOICE_MOST];
    const uint8_t *bytes = (const uint8_t *)text;
    tockplover_invoice v = tockplover_invoice_read(bytes, strlen(text), groups, sizeof groups, index, TOCKPLOVER_INVOICE_MOST);
    printf("invoice ");
    if (v.refusal.number != 0) {
        print_refusal(v.refusal);
        return;
    }
    printf("ok prefix %u amount %.*s time %" PRIu64 " fields %zu expiry %" PRIu64 " delta %" PRIu64 "\n",
        v.prefix, (int)v.amount.size, text + v.amount.start, v.time, v.fields, v.expiry, v.delta);
    tockplover_value sat = tockplover_money_to_sat(v.msat);
    if (v.asked && sat.refusal.number == 0)
        printf("  asks %" PRIu64 " millisatoshi, %" PRIu64 " satoshi\n", v.msat, sat.value);
    for (size_t i = 0; i < v.fields; i++)
        print_field(groups, v.groups, index + 3 * i);
    const uint64_t *p = index + 3 * v.payment;
    tockplover_size hash = tockplover_invoice_field_bytes(groups, v.groups, p[1], p[2], out, sizeof out);
    print_hex("  payment hash:", out, hash.size);

    const uint8_t *fields = groups + TOCKPLOVER_TIME_GROUPS, *signature = groups + v.groups - TOCKPLOVER_SIGNATURE_GROUPS;
    tockplover_size written = tockplover_invoice_write(v.prefix, bytes + v.amount.start, v.amount.size, v.time, fields, (size_t)(signature - fields),
        signature, TOCKPLOVER_SIGNATURE_GROUPS, out, sizeof out);
    printf("  written back: %s\n", written.size == strlen(text) && memcmp(out, text, written.size) == 0 ? "the same text" : "another text");
}

/* Writes an invoice of fields that are made here; its signature is all zeros. */
static void write_invoice(void)
{
    uint8_t fields[3 * TOCKPLOVER_FIELD_MOST], hash[32] = {0}, signature[TOCKPLOVER_SIGNATURE_GROUPS] = {0};
    char text[TOCKPLOVER_INVOICE_MOST + 1];
    const char *tea = "a pot of tea";
    size_t size = tockplover_invoice_field_from_bytes(TOCKPLOVER_FIELD_PAYMENT_HASH, hash, sizeof hash, fields, sizeof fields).size;
    size += tockplover_invoice_field_from_bytes(
        TOCKPLOVER_FIELD_DESCRIPTION, (const uint8_t *)tea, strlen(tea), fields + size, sizeof fields - size).size;
    size += tockplover_invoice_field_from_number(TOCKPLOVER_FIELD_EXPIRY, 600, fields + size, sizeof fields - size).size;
    tockplover_size written = tockplover_invoice_write(TOCKPLOVER_PREFIX_LNTB, (const uint8_t *)"15U", 3, 1700000000, fields, size, signature,
        sizeof signature, (uint8_t *)text, sizeof text - 1);
    if (written.refusal.number != 0) {
        print_refusal(written.refusal);
        return;
    }
    text[written.size] = 0;
    printf("written: %s\n", text);
    read_invoice(text);
}

/* A book without rows and messages, of a stream in namespace 0 and an invoice. */
static size_t make_book(const uint8_t *stream, uint8_t stream_len, const char *invoice, uint8_t *book)
{
    const uint8_t front[] = {0, 0, 0, 1, 0, 0, stream_len}, behind[] = {0, 0, 0, 1, 0, (uint8_t)strlen(invoice)};
    uint8_t *at = book;
    memcpy(at, front, sizeof front);
    at += sizeof front;
    memcpy(at, stream, stream_len);
    at += stream_len;
    memcpy(at, behind, sizeof behind);
    at += sizeof behind;
    memcpy(at, invoice, strlen(invoice));
    return (size_t)(at - book) + strlen(invoice);
}

static void print_figures(const tockplover_figures *figures)
{
    printf("figures of %" PRIu64 " books\n", figures->books);
    for (size_t i = 0; i < figures->pairs && figures->pairs <= TOCKPLOVER_PAIRS_MOST; i++) {
        const uint64_t *row = figures->rows + TOCKPLOVER_PAIR_NUMBERS * i;
        printf("  namespace %" PRIu64 " type %" PRIu64 ": known %" PRIu64 " of %" PRIu64 " bytes, passed over %" PRIu64 " of %" PRIu64
               " bytes, types and lengths %" PRIu64 " bytes\n",
            row[0], row[1], row[2], row[3], row[4], row[5], row[6]);
    }
    uint8_t digits[TOCKPLOVER_DECIMAL_MOST];
    tockplover_halves sum = figures->sum;
    tockplover_size written = tockplover_month_decimal(sum.high, sum.low, digits, sizeof digits);
    printf("  invoices %" PRIu64 ", without amount %" PRIu64 ", millisatoshi %.*s", figures->invoices, figures->unpriced, (int)written.size,
        (const char *)digits);
    tockplover_satoshi satoshi = tockplover_month_satoshi(sum.high, sum.low);
    if (satoshi.outcome == TOCKPLOVER_NONE) {
        printf(", not whole satoshi\n");
        return;
    }
    written = tockplover_month_decimal(satoshi.satoshi.high, satoshi.satoshi.low, digits, sizeof digits);
    printf(", satoshi %.*s\n", (int)written.size, (const char *)digits);
}

/* Adds a book twice and a cut one between. */
static void month_end(const char *invoice)
{
    const uint8_t stream[] = {0x01, 0x01, 0x2a, 0xfd, 0x00, 0xff, 0x02, 0x26, 0x02};
    uint8_t book[300];
    const size_t size = make_book(stream, sizeof stream, invoice, book), given[] = {size, size - 1, size};
    tockplover_figures figures = tockplover_month_empty();
    for (size_t i = 0; i < 3; i++) {
        tockplover_added added = tockplover_month_add(figures, book, given[i]);
        if (added.refusal.number != 0) {
            printf("book %zu ", i + 1);
            print_refusal(added.refusal);
        }
        figures = added.figures;
    }
    print_figures(&figures);
}

static void mend(const uint8_t *old, size_t old_len)
{
    uint8_t out[64];
    tockplover_mended mended = tockplover_mend(old, old_len, out, sizeof out);
    printf("mend ");
    if (mended.refusal.number != 0) {
        print_refusal(mended.refusal);
        return;
    }
    const tockplover_changes changes = mended.changes;
    printf("ok moved %zu dropped %zu respelled %zu cut %zu\n", changes.moved, changes.dropped, changes.respelled, changes.cut);
    print_hex("  stream:", out, mended.size);
}

/* BOLT 11's invoice for a cup of coffee. */
static const char coffee[] = "lnbc2500u1pvjluezpp5qqqsyqcyq5rqwzqfqqqsyqcyq5rqwzqfqqqsyqcyq5rqwzqfqypqdq5xysxxatsyp3k7enxv4jsxqzpu"
                             "aztrnwngzn3kdzw5hydlzf03qdgm2hdq27cqv3agm2awhz5se903vruatfhq77w3ls4evs3ch9zw97j25emudupq63nyw24cg27h2rspfj9srp";

/* BOLT 11's invoice for a list of things, with a route of two hops. */
static const char list_of_things[] =
    "lnbc20m1pvjluezpp5qqqsyqcyq5rqwzqfqqqsyqcyq5rqwzqfqqqsyqcyq5rqwzqfqypqhp58yjmdan79s6qqdhdzgynm4zwqd5d7xmw5fk98klysy043l2ahrqsfpp3"
    "qjmp7lwpagxun9pygexvgpjdc4jdj85fr9yq20q82gphp2nflc7jtzrcazrra7wwgzxqc8u7754cdlpfrmccae92qgzqvzq2ps8pqqqqqqqqqqqq9qqqvpeuqafqxu92d8lr"
    "6fvg0r5gv0heeeqgcrqlnm6jhphu9y00rrhy4grqszsvpcgpy9qqqqqqqqqqqq7qqzqfnlkwydm8rg30gjku7wmxmk06sevjp53fmvrcfegvwy7d5443jvyhxsel0hulkstws"
    "7vqv400q4j3wgpk4crg49682hr4scqvmad43cqd5m7tf";

int main(void)
{
    printf("header %s, archive %s\n", TOCKPLOVER_VERSION,
        tockplover_version() == TOCKPLOVER_VERSION_NUMBER ? "of the same version" : "of another version");

    const uint8_t stream[] = {0x01, 0x00, 0xfd, 0x00, 0xfe, 0x02, 0x02, 0x26};
    const uint8_t unknown[] = {0x01, 0x00, 0x12, 0x00};
    read_stream(stream, sizeof stream);
    read_stream(unknown, sizeof unknown);
    /* without its last byte */
    read_stream(stream, sizeof stream - 1);
    write_stream();

    const uint8_t ping[] = {0x00, 0x12, 0x00, 0x04, 0x00, 0x02, 0x00, 0x00};
    const uint8_t odd[] = {0x00, 0x15}, cut[] = {0x00, 0x12, 0x00};
    read_message(ping, sizeof ping);
    read_message(odd, sizeof odd);
    read_message(cut, sizeof cut);
    const uint8_t ipv4[] = {127, 0, 0, 1, 0x26, 0x07}, name[] = {11, 'e', 'x', 'a', 'm', 'p', 'l', 'e', '.', 'o', 'r', 'g', 0x26, 0x07};
    write_message(TOCKPLOVER_ADDRESS_IPV4, ipv4, sizeof ipv4);
    write_message(TOCKPLOVER_ADDRESS_DNS_NAME, name, sizeof name);
    /* without its port */
    write_message(TOCKPLOVER_ADDRESS_IPV4, ipv4, 4);
    answer_ping(4);
    answer_ping(65532);
    answer_ping(100);

    read_invoice(coffee);
    read_invoice(list_of_things);
    read_invoice("lnbc2500u1pvjluez");
    write_invoice();

    tockplover_size none = tockplover_message_write(20, NULL, 0, NULL, 0, 0, NULL, 0, NULL, 0, NULL, 0);
    printf("message of type 20: ");
    print_refusal(none.refusal);

    month_end(coffee);

    /* The amount, type 1, is doubled: once with the same value, a long type before it and half a record behind; once with another. */
    const uint8_t doubled[] = {0xfd, 0x00, 0x05, 0x01, 0x09, 0x01, 0x01, 0x2a, 0x01, 0x01, 0x2a, 0x07};
    const uint8_t two_amounts[] = {0x05, 0x01, 0x09, 0x01, 0x01, 0x2a, 0x01, 0x01, 0x2b};
    mend(doubled, sizeof doubled);
    mend(two_amounts, sizeof two_amounts);
    return 0;
}
