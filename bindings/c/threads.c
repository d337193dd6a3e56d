/* Asks the same questions in one thread and then in several at once, each with inputs of its own: streams, messages with addresses, invoices, books and
 * the mender. The answers have to be the same. Prints a line for each fault, and the tally at the end. */
#include "tockplover.h"

#include <pthread.h>
#include <stdio.h>
#include <stdlib.h>
#include <string.h>

#define THREADS 8
#define INPUTS 24
#define ROUNDS 40

/* What one thread works with: outputs, a sum of all that was answered, and whether each answer was of the right kind. */
typedef struct {
    uint8_t stream[20000], old[20000], out[20000], text[TOCKPLOVER_INVOICE_MOST], groups[TOCKPLOVER_INVOICE_MOST];
    uint64_t index[40000];
    uint64_t sum;
    int right;
} space;

static void add(space *s, uint64_t number) { s->sum = (s->sum ^ number) * UINT64_C(1099511628211); }

static void add_bytes(space *s, const uint8_t *bytes, size_t size)
{
    for (size_t i = 0; i < size; i++)
        add(s, bytes[i]);
}

/* Adds an answer's refusal, which has to be there or not. */
static void add_refusal(space *s, tockplover_refusal r, int refused)
{
    add(s, r.number);
    add(s, r.place);
    add(s, r.kind);
    add(s, r.missing);
    s->right &= (r.number != 0) == refused;
}

/* Writes a stream of odd types, reads it, and mends it with its records turned around. */
static void ask_streams(space *s, unsigned input)
{
    const uint64_t table[] = {0, 1, 2, 8, 0, 3, 0, 0};
    const size_t records = 10 + 60 * input;
    uint64_t *triples = s->index;
    for (size_t i = 0; i < records; i++)
        memcpy(triples + 3 * i, (const uint64_t[]){2 * i + 1, i % 5, (i + input) % 8}, 3 * sizeof *triples);
    const uint8_t source[] = {7, 6, 5, 4, 3, 2, 1, (uint8_t)input, 9, 8, 7, 6, 5};
    tockplover_size written = tockplover_stream_write(table, 8, 0, triples, 3 * records, source, sizeof source, s->stream, sizeof s->stream);
    add_refusal(s, written.refusal, 0);
    add_bytes(s, s->stream, written.size);

    tockplover_counts counts = tockplover_stream_read(table, 8, 0, s->stream, written.size, s->index, 40000);
    add_refusal(s, counts.refusal, 0);
    add(s, counts.records);
    /* without its last byte, of a value or of a length, one is missing */
    tockplover_counts cut = tockplover_stream_count(table, 8, 0, s->stream, written.size - 1);
    add_refusal(s, cut.refusal, 1);
    s->right &= cut.refusal.missing == 1;
    size_t old = 0;
    for (size_t i = 4 * counts.records; i > 0; i -= 4) {
        const size_t end = s->index[i - 3] + s->index[i - 2], start = i == 4 ? 0 : s->index[i - 7] + s->index[i - 6];
        memcpy(s->old + old, s->stream + start, end - start);
        old += end - start;
    }
    tockplover_mended mended = tockplover_mend(s->old, old, s->out, sizeof s->out);
    add_refusal(s, mended.refusal, 0);
    add(s, mended.changes.moved);
    add_bytes(s, s->out, mended.size);
    /* what is mended is what was written */
    s->right &= mended.size == written.size && memcmp(s->out, s->stream, mended.size) == 0;
}

/* Writes an invoice and reads it, whole and with a character exchanged. */
static void ask_invoices(space *s, unsigned input)
{
    uint8_t hash[32], signature[TOCKPLOVER_SIGNATURE_GROUPS] = {0}, amount[] = {'1', (uint8_t)('0' + input % 10), 'u'};
    memset(hash, (int)input, sizeof hash);
    size_t fields = tockplover_invoice_field_from_bytes(TOCKPLOVER_FIELD_PAYMENT_HASH, hash, sizeof hash, s->groups, sizeof s->groups).size;
    tockplover_size written = tockplover_invoice_write(TOCKPLOVER_PREFIX_LNBC, amount, sizeof amount, 1700000000 + input, s->groups, fields, signature,
        sizeof signature, s->text, sizeof s->text);
    add_refusal(s, written.refusal, 0);
    for (int exchanged = 0; exchanged < 2; exchanged++) {
        s->text[20] ^= exchanged ? 'q' ^ 'p' : 0;
        tockplover_invoice read = tockplover_invoice_read(s->text, written.size, s->groups, sizeof s->groups, s->index, 40000);
        add_refusal(s, read.refusal, exchanged);
        add(s, read.msat);
        add(s, read.time);
        add_bytes(s, s->groups, read.groups);
    }
}

/* Writes a message with an address, reads both, and adds a book of it and of the mended stream to figures. */
static void ask_books(space *s, unsigned input)
{
    const uint8_t features[] = {2, (uint8_t)input}, stream[] = {1, 1, (uint8_t)input}, rest[] = {127, 0, 0, (uint8_t)input, 0x26, 0x07};
    uint8_t address[1 + sizeof rest];
    tockplover_size descriptor = tockplover_address_write(TOCKPLOVER_ADDRESS_IPV4, rest, sizeof rest, address, sizeof address);
    add_refusal(s, descriptor.refusal, 0);
    tockplover_size message = tockplover_message_write(TOCKPLOVER_MESSAGE_INIT, NULL, 0, features, 2, 0, (const uint64_t[]){3, 0, descriptor.size}, 3,
        address, descriptor.size, s->out, sizeof s->out);
    tockplover_message read = tockplover_message_read(s->out, message.size, s->index, 40000);
    add_refusal(s, read.refusal, 0);
    add(s, read.known);
    tockplover_span value = tockplover_message_address(s->out, message.size);
    add_refusal(s, value.refusal, 0);
    tockplover_address told = tockplover_address_read(s->out + value.start, value.size);
    add_refusal(s, told.refusal, 0);
    add(s, told.kind);
    add_bytes(s, s->out + value.start + told.rest.start, told.rest.size);

    uint8_t book[100] = {0, 0, 0, 1, (uint8_t)input, 0, 3, stream[0], stream[1], stream[2], 0, 1, 0, (uint8_t)message.size};
    memcpy(book + 14, s->out, message.size);
    const size_t book_len = 14 + message.size + 2;
    tockplover_size report = tockplover_book_report(book, book_len, s->out, sizeof s->out);
    add_refusal(s, report.refusal, 0);
    add_bytes(s, s->out, report.size);
    tockplover_added added = tockplover_month_add(tockplover_month_empty(), book, book_len);
    added = tockplover_month_add(added.figures, book, book_len);
    add_refusal(s, added.refusal, 0);
    for (size_t i = 0; i < TOCKPLOVER_PAIR_NUMBERS * added.figures.pairs; i++)
        add(s, added.figures.rows[i]);
}

/* All that is answered to one input, as a sum; 0 where an answer is of another kind than it should be. */
static uint64_t ask_all(space *s, unsigned input)
{
    s->sum = s->right = 1;
    ask_streams(s, input);
    ask_invoices(s, input);
    ask_books(s, input);
    return s->right ? s->sum : 0;
}

/* The answers of one thread alone, by input; and the threads' faults. */
static uint64_t alone[INPUTS];
static unsigned faults[THREADS];

/* Goes over the inputs again and again, from another one on than the other threads. */
static void *work(void *own)
{
    unsigned *fault = own;
    const unsigned thread = (unsigned)(fault - faults);
    space *s = malloc(sizeof *s);
    if (s == NULL) {
        *fault = 1;
        return NULL;
    }
    for (unsigned i = 0; i < INPUTS * ROUNDS; i++)
        *fault += ask_all(s, (i + 3 * thread) % INPUTS) != alone[(i + 3 * thread) % INPUTS];
    free(s);
    return NULL;
}

static unsigned passed, failed;

static void check(const char *name, unsigned number, int right)
{
    if (right) {
        passed++;
    } else {
        failed++;
        printf("FAILED %s %u\n", name, number);
    }
}

int main(void)
{
    static space s;
    pthread_t threads[THREADS];
    for (unsigned input = 0; input < INPUTS; input++) {
        alone[input] = ask_all(&s, input);
        /* of another input than the one before there are other answers, or the sums would show nothing */
        check("input", input, alone[input] != 0 && (input == 0 || alone[input] != alone[input - 1]));
    }
    for (unsigned i = 0; i < THREADS; i++) {
        if (pthread_create(threads + i, NULL, work, faults + i) != 0) {
            printf("FAILED there is no thread %u\n", i);
            return 1;
        }
    }
    for (unsigned i = 0; i < THREADS; i++) {
        pthread_join(threads[i], NULL);
        check("the answers of thread", i, faults[i] == 0);
    }
    printf("%u passed, %u failed\n", passed, failed);
    return failed != 0;
}
