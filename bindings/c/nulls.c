/* Lends nothing, for each pointer of each function: once as a pointer to something with the count 0, once as NULL with the count 0. The answers and
 * what stands in the outputs have to be the same, with the refusal that is written here. Prints a line for each fault, and the tally at the end. */
#include "tockplover.h"

#include <stdio.h>
#include <string.h>

/* What is lent where there is nothing to lend. */
typedef struct {
    const uint8_t *bytes;
    const uint64_t *numbers;
    uint8_t *out;
    uint64_t *index;
} nothing;

/* What is lent beside the nothing. */
static uint8_t out[4096];
static uint64_t index_out[4096];
#define OUT out, sizeof out
#define INDEX index_out, sizeof index_out / sizeof *index_out

/* An answer: the question's name, the refusal that it has to have, the answer's members in their order, and a sum of both outputs. */
typedef struct {
    const char *name;
    uint8_t wanted;
    uint64_t members[16];
    size_t count;
    uint64_t outputs;
} answer;

static answer answers[100];
static size_t asked;

/* A number that differs where the outputs do, as good as always. */
static uint64_t sum_of_outputs(void)
{
    uint64_t sum = 1;
    for (size_t i = 0; i < sizeof out; i++)
        sum = sum * UINT64_C(1099511628211) + out[i] + index_out[i];
    return sum;
}

static answer *ask(const char *name, uint8_t wanted, tockplover_refusal r)
{
    answer *a = answers + asked++;
    *a = (answer){name, wanted, {r.number, r.place, r.kind, r.missing}, 4, sum_of_outputs()};
    return a;
}

static void tell(answer *a, uint64_t member) { a->members[a->count++] = member; }

static void tell_refusal(const char *name, uint8_t wanted, tockplover_refusal r) { ask(name, wanted, r); }

static void tell_size(const char *name, uint8_t wanted, tockplover_size s) { tell(ask(name, wanted, s.refusal), s.size); }

static void tell_value(const char *name, uint8_t wanted, tockplover_value v) { tell(ask(name, wanted, v.refusal), v.value); }

static void tell_number(const char *name, uint8_t wanted, tockplover_number n)
{
    answer *a = ask(name, wanted, n.refusal);
    tell(a, n.value);
    tell(a, n.width);
}

static void tell_extension(const char *name, uint8_t wanted, tockplover_extension x)
{
    answer *a = ask(name, wanted, x.refusal);
    tell(a, x.outcome);
    tell(a, x.row);
}

static void tell_counts(const char *name, uint8_t wanted, tockplover_counts c)
{
    answer *a = ask(name, wanted, c.refusal);
    tell(a, c.records);
    tell(a, c.known);
}

static void tell_span(const char *name, uint8_t wanted, tockplover_span s)
{
    answer *a = ask(name, wanted, s.refusal);
    tell(a, s.start);
    tell(a, s.size);
}

static void tell_part(answer *a, tockplover_part p)
{
    tell(a, p.start);
    tell(a, p.size);
}

static void tell_address(const char *name, uint8_t wanted, tockplover_address d)
{
    answer *a = ask(name, wanted, d.refusal);
    tell(a, d.kind);
    tell_part(a, d.rest);
}

static void tell_message(const char *name, uint8_t wanted, tockplover_message m)
{
    answer *a = ask(name, wanted, m.refusal);
    tell(a, m.outcome);
    tell(a, m.kind);
    tell_part(a, m.first);
    tell_part(a, m.last);
    tell(a, m.wanted);
    tell_part(a, m.extension);
    tell(a, m.records);
    tell(a, m.known);
}

static void tell_reply(const char *name, uint8_t wanted, tockplover_reply r)
{
    answer *a = ask(name, wanted, r.refusal);
    tell(a, r.outcome);
    tell(a, r.size);
}

static void tell_invoice(const char *name, uint8_t wanted, tockplover_invoice v)
{
    answer *a = ask(name, wanted, v.refusal);
    tell(a, v.prefix);
    tell(a, v.asked);
    tell_part(a, v.amount);
    tell(a, v.msat);
    tell(a, v.time);
    tell(a, v.groups);
    tell(a, v.fields);
    tell(a, v.payment);
    tell(a, v.expiry);
    tell(a, v.delta);
}

static void tell_entry(const char *name, uint8_t wanted, tockplover_entry e)
{
    answer *a = ask(name, wanted, e.refusal);
    tell(a, e.outcome);
    tell(a, e.channel);
    tell(a, e.fee);
    tell(a, e.delta);
}

static void tell_profile(const char *name, uint8_t wanted, tockplover_profile p)
{
    answer *a = ask(name, wanted, p.refusal);
    tell(a, p.count);
    for (size_t i = 0; i < TOCKPLOVER_RULES; i++)
        tell(a, p.rules[i]);
}

static void tell_added(const char *name, uint8_t wanted, tockplover_added d)
{
    answer *a = ask(name, wanted, d.refusal);
    tell(a, d.figures.books);
    tell(a, d.figures.pairs);
    tell(a, d.figures.invoices);
    tell(a, d.figures.sum.low);
}

static void tell_mended(const char *name, uint8_t wanted, tockplover_mended m)
{
    answer *a = ask(name, wanted, m.refusal);
    tell(a, m.size);
    tell(a, m.changes.moved);
    tell(a, m.changes.dropped);
    tell(a, m.changes.respelled);
    tell(a, m.changes.cut);
}

static void numbers(nothing no)
{
    tell_number("bigsize_read: no bytes", 13, tockplover_bigsize_read(no.bytes, 0));
    tell_size("bigsize_write: no output", 12, tockplover_bigsize_write(1, no.out, 0));
}

static void tables(nothing no)
{
    const uint64_t table[] = {0, 1, 2, 8};
    tell_refusal("table_check: no table", 0, tockplover_table_check(no.numbers, 0));
    tell_extension("table_extends: no older", 0, tockplover_table_extends(no.numbers, 0, table, 4));
    tell_extension("table_extends: no newer", 0, tockplover_table_extends(table, 4, no.numbers, 0));
    tell_extension("table_extends: neither", 0, tockplover_table_extends(no.numbers, 0, no.numbers, 0));
}

static void streams(nothing no)
{
    const uint64_t table[] = {0, 1, 2, 8}, triples[] = {1, 0, 1}, empty_value[] = {1, 0, 0};
    const uint8_t stream[] = {1, 1, 42}, source[] = {42};
    tell_counts("stream_count: no table", 0, tockplover_stream_count(no.numbers, 0, 0, stream, 3));
    tell_counts("stream_count: no stream", 0, tockplover_stream_count(table, 4, 0, no.bytes, 0));
    tell_counts("stream_count: neither", 0, tockplover_stream_count(no.numbers, 0, 0, no.bytes, 0));
    tell_counts("stream_read: no table", 0, tockplover_stream_read(no.numbers, 0, 0, stream, 3, INDEX));
    tell_counts("stream_read: no stream", 0, tockplover_stream_read(table, 4, 0, no.bytes, 0, INDEX));
    tell_counts("stream_read: no index", 12, tockplover_stream_read(table, 4, 0, stream, 3, no.index, 0));
    tell_counts("stream_read: nothing", 0, tockplover_stream_read(no.numbers, 0, 0, no.bytes, 0, no.index, 0));
    tell_refusal("stream_contains: no table", 0, tockplover_stream_contains(no.numbers, 0, 0, stream, 3, 1));
    tell_refusal("stream_contains: no stream", 15, tockplover_stream_contains(table, 4, 0, no.bytes, 0, 1));
    tell_refusal("stream_contains: neither", 15, tockplover_stream_contains(no.numbers, 0, 0, no.bytes, 0, 1));
    tell_span("stream_value: no table", 0, tockplover_stream_value(no.numbers, 0, 0, stream, 3, 1));
    tell_span("stream_value: no stream", 15, tockplover_stream_value(table, 4, 0, no.bytes, 0, 1));
    tell_span("stream_value: neither", 15, tockplover_stream_value(no.numbers, 0, 0, no.bytes, 0, 1));
    tell_size("stream_write: no table", 0, tockplover_stream_write(no.numbers, 0, 0, triples, 3, source, 1, OUT));
    tell_size("stream_write: no triples", 0, tockplover_stream_write(table, 4, 0, no.numbers, 0, source, 1, OUT));
    tell_size("stream_write: no source", 16, tockplover_stream_write(table, 4, 0, triples, 3, no.bytes, 0, OUT));
    tell_size("stream_write: no source, an empty value", 0, tockplover_stream_write(table, 4, 0, empty_value, 3, no.bytes, 0, OUT));
    tell_size("stream_write: no output", 12, tockplover_stream_write(table, 4, 0, triples, 3, source, 1, no.out, 0));
    tell_size("stream_write: nothing", 0, tockplover_stream_write(no.numbers, 0, 0, no.numbers, 0, no.bytes, 0, no.out, 0));
}

static void addresses(nothing no)
{
    const uint8_t rest[] = {127, 0, 0, 1, 0x26, 0x07};
    tell_address("address_read: no value", 8, tockplover_address_read(no.bytes, 0));
    tell_size("address_write: no rest", 8, tockplover_address_write(1, no.bytes, 0, OUT));
    tell_size("address_write: no rest of an unknown type", 0, tockplover_address_write(9, no.bytes, 0, OUT));
    tell_size("address_write: no output", 12, tockplover_address_write(1, rest, sizeof rest, no.out, 0));
    tell_size("address_write: neither", 12, tockplover_address_write(9, no.bytes, 0, no.out, 0));
}

static void messages(nothing no)
{
    const uint8_t ping[] = {0, 18, 0, 4, 0, 0}, init[] = {0, 16, 0, 0, 0, 0, 3, 1, 9}, map[] = {2}, source[] = {9};
    const uint64_t triples[] = {3, 0, 1};
    tell_message("message_read: no message", 20, tockplover_message_read(no.bytes, 0, INDEX));
    tell_message("message_read: no index", 0, tockplover_message_read(ping, sizeof ping, no.index, 0));
    tell_message("message_read: no index for a record", 12, tockplover_message_read(init, sizeof init, no.index, 0));
    tell_message("message_read: neither", 20, tockplover_message_read(no.bytes, 0, no.index, 0));
    tell_span("message_address: no message", 20, tockplover_message_address(no.bytes, 0));
    tell_size("message_write: no first", 0, tockplover_message_write(16, no.bytes, 0, map, 1, 0, triples, 3, source, 1, OUT));
    tell_size("message_write: no last", 0, tockplover_message_write(16, map, 1, no.bytes, 0, 0, triples, 3, source, 1, OUT));
    tell_size("message_write: no triples", 0, tockplover_message_write(16, map, 1, map, 1, 0, no.numbers, 0, source, 1, OUT));
    tell_size("message_write: no source", 16, tockplover_message_write(16, map, 1, map, 1, 0, triples, 3, no.bytes, 0, OUT));
    tell_size("message_write: no output", 12, tockplover_message_write(16, map, 1, map, 1, 0, triples, 3, source, 1, no.out, 0));
    tell_size("message_write: nothing but an output", 0, tockplover_message_write(18, no.bytes, 0, no.bytes, 0, 4, no.numbers, 0, no.bytes, 0, OUT));
    tell_size("message_write: no channel", 20, tockplover_message_write(17, no.bytes, 0, no.bytes, 0, 0, no.numbers, 0, no.bytes, 0, no.out, 0));
    tell_size("message_join_features: no first", 0, tockplover_message_join_features(no.bytes, 0, map, 1, OUT));
    tell_size("message_join_features: no second", 0, tockplover_message_join_features(map, 1, no.bytes, 0, OUT));
    tell_size("message_join_features: no output", 12, tockplover_message_join_features(map, 1, map, 1, no.out, 0));
    tell_size("message_join_features: nothing", 0, tockplover_message_join_features(no.bytes, 0, no.bytes, 0, no.out, 0));
    tell_reply("message_pong: no output", 12, tockplover_message_pong(0, no.out, 0));
    tell_reply("message_pong: no output for no pong", 0, tockplover_message_pong(65532, no.out, 0));
}

static void invoices(nothing no)
{
    static const char text[] =
        "lnbc2500u1pvjluezpp5qqqsyqcyq5rqwzqfqqqsyqcyq5rqwzqfqqqsyqcyq5rqwzqfqypqdq5xysxxatsyp3k7enxv4jsxqzpuaztrnwngzn3kdzw5hydlzf03qdgm2hdq27cq"
        "v3agm2awhz5se903vruatfhq77w3ls4evs3ch9zw97j25emudupq63nyw24cg27h2rspfj9srp";
    const uint8_t *bytes = (const uint8_t *)text, hash[32] = {0}, signature[TOCKPLOVER_SIGNATURE_GROUPS] = {0}, route[82] = {0};
    uint8_t field[TOCKPLOVER_FIELD_MOST];
    const size_t size = strlen(text), field_size = tockplover_invoice_field_from_bytes(1, hash, 32, field, sizeof field).size;
    tell_invoice("invoice_read: no text", 33, tockplover_invoice_read(no.bytes, 0, OUT, INDEX));
    tell_invoice("invoice_read: no groups", 12, tockplover_invoice_read(bytes, size, no.out, 0, INDEX));
    tell_invoice("invoice_read: no index", 12, tockplover_invoice_read(bytes, size, OUT, no.index, 0));
    tell_invoice("invoice_read: nothing", 33, tockplover_invoice_read(no.bytes, 0, no.out, 0, no.index, 0));
    tell_profile("till_profile: no text", 33, tockplover_till_profile(no.bytes, 0));
    tell_size("invoice_write: no amount", 0, tockplover_invoice_write(1, no.bytes, 0, 0, field, field_size, signature, sizeof signature, OUT));
    tell_size("invoice_write: no fields", 40, tockplover_invoice_write(1, bytes + 4, 5, 0, no.bytes, 0, signature, sizeof signature, OUT));
    tell_size("invoice_write: no signature", 38, tockplover_invoice_write(1, bytes + 4, 5, 0, field, field_size, no.bytes, 0, OUT));
    tell_size("invoice_write: no output", 12, tockplover_invoice_write(1, bytes + 4, 5, 0, field, field_size, signature, sizeof signature, no.out, 0));
    tell_size("invoice_write: nothing", 38, tockplover_invoice_write(1, no.bytes, 0, 0, no.bytes, 0, no.bytes, 0, no.out, 0));
    tell_size("invoice_field_bytes: no groups", 0, tockplover_invoice_field_bytes(no.bytes, 0, 0, 0, OUT));
    tell_size("invoice_field_bytes: no output", 12, tockplover_invoice_field_bytes(route, 82, 0, 82, no.out, 0));
    tell_size("invoice_field_bytes: neither", 0, tockplover_invoice_field_bytes(no.bytes, 0, 0, 0, no.out, 0));
    tell_value("invoice_field_number: no groups", 0, tockplover_invoice_field_number(no.bytes, 0, 0, 0));
    tell_value("invoice_route_size: no groups", 0, tockplover_invoice_route_size(no.bytes, 0, 3, 0, 0));
    tell_entry("invoice_route_entry: no groups", 0, tockplover_invoice_route_entry(no.bytes, 0, 3, 0, 0, 0, OUT));
    tell_entry("invoice_route_entry: no key", 12, tockplover_invoice_route_entry(route, 82, 3, 0, 82, 0, no.out, 0));
    tell_entry("invoice_route_entry: neither", 0, tockplover_invoice_route_entry(no.bytes, 0, 3, 0, 0, 0, no.out, 0));
    tell_size("invoice_field_from_bytes: no bytes", 0, tockplover_invoice_field_from_bytes(13, no.bytes, 0, OUT));
    tell_size("invoice_field_from_bytes: no output", 12, tockplover_invoice_field_from_bytes(13, hash, 32, no.out, 0));
    tell_size("invoice_field_from_bytes: neither", 12, tockplover_invoice_field_from_bytes(13, no.bytes, 0, no.out, 0));
    tell_size("invoice_field_from_number: no output", 12, tockplover_invoice_field_from_number(6, 60, no.out, 0));
}

static void books(nothing no)
{
    const uint8_t book[8] = {0}, stream[] = {3, 0, 1, 0};
    tell_size("book_report: no book", 0, tockplover_book_report(no.bytes, 0, OUT));
    tell_size("book_report: no output", 12, tockplover_book_report(book, 8, no.out, 0));
    tell_size("book_report: neither", 12, tockplover_book_report(no.bytes, 0, no.out, 0));
    tell_added("month_add: no book", 70, tockplover_month_add(tockplover_month_empty(), no.bytes, 0));
    tell_size("month_decimal: no output", 12, tockplover_month_decimal(0, 1, no.out, 0));
    tell_mended("mend: no stream", 0, tockplover_mend(no.bytes, 0, OUT));
    tell_mended("mend: no output", 12, tockplover_mend(stream, 4, no.out, 0));
    tell_mended("mend: nothing", 0, tockplover_mend(no.bytes, 0, no.out, 0));
}

/* Asks every question, and keeps the answers. */
static void ask_all(nothing no)
{
    asked = 0;
    memset(out, 0xa5, sizeof out);
    memset(index_out, 0xa5, sizeof index_out);
    numbers(no);
    tables(no);
    streams(no);
    addresses(no);
    messages(no);
    invoices(no);
    books(no);
}

/* Whether two answers to a question are the same, with the refusal that it has to have. */
static int are_same(const answer *a, const answer *b)
{
    return a->count == b->count && memcmp(a->members, b->members, sizeof a->members) == 0 && a->outputs == b->outputs && a->members[0] == a->wanted;
}

int main(void)
{
    static answer lent[sizeof answers / sizeof *answers];
    const uint8_t bytes[1] = {1};
    const uint64_t row[1] = {1};
    unsigned passed = 0, failed = 0;
    ask_all((nothing){bytes, row, out, index_out});
    memcpy(lent, answers, sizeof answers);
    ask_all((nothing){NULL, NULL, NULL, NULL});
    for (size_t i = 0; i < asked; i++) {
        if (are_same(answers + i, lent + i)) {
            passed++;
        } else {
            failed++;
            printf("FAILED %s: refused %u with NULL, %u with a pointer\n", lent[i].name, (unsigned)answers[i].members[0], (unsigned)lent[i].members[0]);
        }
    }
    printf("%u passed, %u failed\n", passed, failed);
    return failed != 0;
}
