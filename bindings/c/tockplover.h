/*
 * Tockplover: reads and writes BigSize numbers, record streams, messages and invoices of the Lightning network, tells which rules of the till profile
 * an invoice breaks, mends old streams, and reports on recording books.
 *
 * `tockplover install` puts this header in include/, the archive in lib/ as libtockplover.a, and a file for pkg-config beside it:
 *
 *     cc gateway.c $(pkg-config --cflags --libs tockplover)
 *
 * In the repository the archive is target/staticlib/libcapi.a, which `tools/build staticlib capi` proves and writes. It needs the C library and nothing
 * else. The header is C99 and later, and C++.
 *
 * The rules of every function below:
 *
 * 1. Arguments. Outputs come last. A run of bytes or numbers is a pointer and, right behind it, how many elements it has. With the count 0 the
 *    pointer may be NULL, and is not used. A struct goes in by value.
 * 2. Ownership. The caller owns all memory. A function keeps no pointer when it returns, allocates nothing, holds no state and may be
 *    called from several threads at once. An output must not overlap what the call reads, nor another output of it.
 * 3. Results. A struct is returned by value and begins with the refusal, where there can be one. Its number is 0 where nothing is refused; on a
 *    refusal the other members but an outcome are 0, and the figures of tockplover_month_add are what it says. A struct with an outcome says by
 *    that which of its answers it is, and only then do the other members speak.
 * 4. Outputs. An accepted call fills the front of each output and leaves the rest as it was. A refused call, and one that has nothing to
 *    write, leaves every output as it was, whole. An output may always be longer than needed. One that is too short is refused with 12.
 * 5. Every call ends, whatever the bytes are. The only errors are refusals; errno is not touched.
 *
 * Starts, places and rows count from 0.
 *
 * Since 0.3.0 a refusal has one member more, missing, so that it and every struct that begins with one are longer: a gateway that was compiled with
 * an older header has to be compiled anew with this one before it links this archive. tockplover_version tells the archive's version.
 */
#ifndef TOCKPLOVER_H
#define TOCKPLOVER_H

#include <stddef.h>
#include <stdint.h>

#include "tockplover_words.h"

/* The version of this header; tockplover_version has that of the archive. */
#define TOCKPLOVER_VERSION "0.3.0"
#define TOCKPLOVER_VERSION_MAJOR 0
#define TOCKPLOVER_VERSION_MINOR 3
#define TOCKPLOVER_VERSION_PATCH 0
#define TOCKPLOVER_VERSION_NUMBER (TOCKPLOVER_VERSION_MAJOR * 10000 + TOCKPLOVER_VERSION_MINOR * 100 + TOCKPLOVER_VERSION_PATCH)

#ifdef __cplusplus
extern "C" {
#endif

/* The numbers of refusals; tockplover_meaning and tockplover_advice have the words of each. */
enum tockplover_refusal_number {
    /* nothing is refused */
    TOCKPLOVER_NOTHING = 0,

    /* Records and streams. */

    /* a record's type, or a BigSize asked alone, is cut short; missing tells by how much */
    TOCKPLOVER_TYPE_CUT = 1,
    /* a record's type, or a BigSize asked alone, is not in its shortest form */
    TOCKPLOVER_TYPE_NOT_SHORTEST = 2,
    /* a type is not above the one before */
    TOCKPLOVER_TYPE_NOT_RISING = 3,
    /* a length is missing or cut short; missing tells by how much */
    TOCKPLOVER_LENGTH_CUT = 4,
    /* a length is not in its shortest form */
    TOCKPLOVER_LENGTH_NOT_SHORTEST = 5,
    /* a value is cut short; missing tells by how much */
    TOCKPLOVER_VALUE_CUT = 6,
    /* an even type that the table does not know */
    TOCKPLOVER_UNKNOWN_EVEN_TYPE = 7,
    /* a value's length is not what its form asks */
    TOCKPLOVER_VALUE_LENGTH = 8,
    /* an integer begins with a zero byte */
    TOCKPLOVER_LEADING_ZERO = 9,
    /* a point's first byte is neither 2 nor 3 */
    TOCKPLOVER_POINT_BYTE = 10,
    /* a stream inside a record of a level 4 stream */
    TOCKPLOVER_TOO_DEEP = 11,
    /* an index or output is too short for the whole answer */
    TOCKPLOVER_NO_ROOM = 12,
    /* a BigSize was asked of no bytes */
    TOCKPLOVER_NOTHING_TO_READ = 13,
    /* a stream is over 65,535 bytes */
    TOCKPLOVER_STREAM_TOO_LONG = 14,
    /* the asked type is not among the records */
    TOCKPLOVER_TYPE_ABSENT = 15,
    /* triples are incomplete or reach outside the source; a field reaches outside the groups */
    TOCKPLOVER_TRIPLES = 16,

    /* Messages. */

    /* a message or its payload is cut short, or the writer's channel is not 32 bytes */
    TOCKPLOVER_MESSAGE_CUT = 20,
    /* a message is over 65,535 bytes */
    TOCKPLOVER_MESSAGE_TOO_LONG = 21,
    /* an even message type that is not known; in the writer, any type but the five */
    TOCKPLOVER_UNKNOWN_EVEN_MESSAGE = 22,

    /* Invoices and amounts. */

    /* a text is over 4,096 characters */
    TOCKPLOVER_TEXT_TOO_LONG = 30,
    /* a byte is outside 33 to 126 */
    TOCKPLOVER_TEXT_BYTE = 31,
    /* a text has both upper-case and lower-case letters */
    TOCKPLOVER_BOTH_CASES = 32,
    /* no separator, nothing before it, or under 117 characters after it */
    TOCKPLOVER_SEPARATOR = 33,
    /* a character is outside the alphabet, or a group or a field's type is above 31 */
    TOCKPLOVER_ALPHABET = 34,
    /* the checksum does not hold */
    TOCKPLOVER_CHECKSUM = 35,
    /* the prefix is not one of an invoice */
    TOCKPLOVER_PREFIX = 36,
    /* the amount is not one of an invoice, or not in whole millisatoshi */
    TOCKPLOVER_AMOUNT = 37,
    /* the fields do not end at the signature; the signature is not of 104 groups; a field has too many groups */
    TOCKPLOVER_FIELDS = 38,
    /* the signature's recovery byte is above 3 */
    TOCKPLOVER_RECOVERY_BYTE = 39,
    /* there is no usable payment hash */
    TOCKPLOVER_NO_PAYMENT_HASH = 40,
    /* a time of 2^35 or more */
    TOCKPLOVER_TIME = 42,
    /* a millisatoshi count that is no whole number of satoshis */
    TOCKPLOVER_NOT_WHOLE_SATOSHIS = 43,

    /* The table of known types. */

    /* a table's numbers do not come in fours, or it has over 256 rows */
    TOCKPLOVER_TABLE_SHAPE = 60,
    /* a namespace is over 63 */
    TOCKPLOVER_NAMESPACE = 61,
    /* a table's rows do not rise */
    TOCKPLOVER_ROWS_NOT_RISING = 62,
    /* a row's form or parameter is not one of the list of forms */
    TOCKPLOVER_FORM = 63,

    /* The recording book; a report tells these in its text, tockplover_month_add in its refusal. */

    /* a book is cut short */
    TOCKPLOVER_BOOK_CUT = 70,
    /* bytes follow a book's end */
    TOCKPLOVER_BOOK_EXTRA = 71,
    /* a book is over 65,535 bytes */
    TOCKPLOVER_BOOK_TOO_LONG = 72,

    /* Month-end figures. */

    /* over 512 different pairs of namespace and type; from then on there are no figures */
    TOCKPLOVER_TOO_MANY_PAIRS = 73,
    /* a further book, where 1,000 are given already */
    TOCKPLOVER_TOO_MANY_BOOKS = 76,

    /* The mender. */

    /* two records of one type have different values */
    TOCKPLOVER_TWO_VALUES = 80
};

/* The outcomes of a question that has more answers than yes and a refusal. */
enum tockplover_outcome {
    /* no refusal; the other members have the answer */
    TOCKPLOVER_ACCEPTED = 0,
    /* the refusal says why */
    TOCKPLOVER_REFUSED = 1,
    /* no refusal, and nothing to tell: a message that is passed over, a ping without a pong, a route without the entry, a sum that is no whole
     * number of satoshis */
    TOCKPLOVER_NONE = 2
};

/* The outcomes of tockplover_table_extends. */
enum tockplover_extension_outcome {
    /* the newer table has every row of the older one, unchanged */
    TOCKPLOVER_EXTENDS = 0,
    /* the older one is no table */
    TOCKPLOVER_OLDER_REFUSED = 1,
    /* a row of the older one is not in the newer, or not unchanged */
    TOCKPLOVER_LACKS = 2,
    /* the newer one is no table */
    TOCKPLOVER_NEWER_REFUSED = 3
};

/* The types of the messages that are read and written. */
enum tockplover_message_type {
    TOCKPLOVER_MESSAGE_WARNING = 1,
    TOCKPLOVER_MESSAGE_INIT = 16,
    TOCKPLOVER_MESSAGE_ERROR = 17,
    TOCKPLOVER_MESSAGE_PING = 18,
    TOCKPLOVER_MESSAGE_PONG = 19
};

/* The types of addresses, each with its rest. A descriptor may have another type too. */
enum tockplover_address_type {
    /* IPv4: 4 bytes and the port */
    TOCKPLOVER_ADDRESS_IPV4 = 1,
    /* IPv6: 16 bytes and the port */
    TOCKPLOVER_ADDRESS_IPV6 = 2,
    /* Tor v2: 10 bytes and the port */
    TOCKPLOVER_ADDRESS_TOR_V2 = 3,
    /* Tor v3: 35 bytes and the port */
    TOCKPLOVER_ADDRESS_TOR_V3 = 4,
    /* a DNS name: a byte with its length, at least 1, the name and the port */
    TOCKPLOVER_ADDRESS_DNS_NAME = 5
};

/* What an invoice's text begins with. */
enum tockplover_prefix {
    /* lnbc, mainnet */
    TOCKPLOVER_PREFIX_LNBC = 1,
    /* lntb, testnet */
    TOCKPLOVER_PREFIX_LNTB = 2
};

/* The types of an invoice's fields, each with its letter in BOLT 11. A field of another type may stand in an invoice too. */
enum tockplover_field_type {
    /* p: the payment hash, 32 bytes */
    TOCKPLOVER_FIELD_PAYMENT_HASH = 1,
    /* r: a route to the payee, of entries */
    TOCKPLOVER_FIELD_ROUTE = 3,
    /* x: the expiry, a number of seconds */
    TOCKPLOVER_FIELD_EXPIRY = 6,
    /* f: an address to pay to where the payment fails; not judged */
    TOCKPLOVER_FIELD_FALLBACK = 9,
    /* d: what the payment is for, a text; its bytes are not judged */
    TOCKPLOVER_FIELD_DESCRIPTION = 13,
    /* n: the payee's public key, 33 bytes */
    TOCKPLOVER_FIELD_PAYEE = 19,
    /* h: the hash of a longer description, 32 bytes */
    TOCKPLOVER_FIELD_DESCRIPTION_HASH = 23,
    /* c: the delta of the last hop, a number of blocks */
    TOCKPLOVER_FIELD_DELTA = 24
};

/* The rules of the till profile; tockplover_rule_meaning and tockplover_rule_advice have the words of each. A field that is not usable is in no
 * rule; every d is. */
enum tockplover_rule {
    /* exactly one usable p */
    TOCKPLOVER_RULE_PAYMENT_HASH = 1,
    /* exactly one of d and usable h together */
    TOCKPLOVER_RULE_DESCRIPTION = 2,
    /* at most one each of usable x, c and n */
    TOCKPLOVER_RULE_AT_MOST_ONCE = 3,
    /* zero padding bits and no spare group in usable p, h, n and r and in d */
    TOCKPLOVER_RULE_PADDING = 4,
    /* usable x and c without leading zero groups */
    TOCKPLOVER_RULE_LEADING_ZEROS = 5,
    /* the amount so spelled that no allowed spelling of it has fewer characters */
    TOCKPLOVER_RULE_AMOUNT = 6
};

/* Why a question was refused; the member of that name in the answers below. */
typedef struct {
    /* one of enum tockplover_refusal_number; 0 where nothing is refused */
    uint8_t number;
    /* of a stream or a message, the first byte of the innermost faulty record; of a stream that is written, the faulty triple; of an
     * invoice, the first bad character (31, 34); of a field, the first bad group (34); else 0 */
    size_t place;
    /* the type of the faulty record, triple or message, or the asked type (15); else 0 */
    uint64_t kind;
    /* how many bytes are missing: from the type or the BigSize (1) and from the length (4), 1 to 8, which is what the first byte announces less what
     * is there, and 1 for a length that is not begun; from the value (6) its length less what is there, up to 2^64 - 1; with 13 it is 1; else 0. In a
     * stream inside a record it is counted to the end of that record's value. */
    uint64_t missing;
} tockplover_refusal;

/* What was written. */
typedef struct {
    tockplover_refusal refusal;
    /* how many bytes, characters or groups stand at the front of the output */
    size_t size;
} tockplover_size;

/* A number, or a count. */
typedef struct {
    tockplover_refusal refusal;
    /* the number */
    uint64_t value;
} tockplover_value;

/* A BigSize. */
typedef struct {
    tockplover_refusal refusal;
    /* the number */
    uint64_t value;
    /* how many bytes it takes: 1, 3, 5 or 9 */
    size_t width;
} tockplover_number;

/* How a newer table compares with an older one. */
typedef struct {
    /* the refusal of the table that the outcome names */
    tockplover_refusal refusal;
    /* one of enum tockplover_extension_outcome */
    uint8_t outcome;
    /* with TOCKPLOVER_LACKS: the older table's first row that the newer lacks or has otherwise */
    size_t row;
} tockplover_extension;

/* How many records a stream has. */
typedef struct {
    tockplover_refusal refusal;
    /* the outer records */
    size_t records;
    /* those among them whose type the table knows */
    size_t known;
} tockplover_counts;

/* Where a value lies in a stream or a message. */
typedef struct {
    tockplover_refusal refusal;
    /* its first byte; of an empty value, where it would stand */
    size_t start;
    /* how many bytes it has */
    size_t size;
} tockplover_span;

/* A part of the bytes or characters that the caller lent. */
typedef struct {
    /* its first byte or character; of an empty part, where it would stand */
    size_t start;
    /* how many it has */
    size_t size;
} tockplover_part;

/* An address. */
typedef struct {
    tockplover_refusal refusal;
    /* its type, one of enum tockplover_address_type or another */
    uint8_t kind;
    /* what stands behind the type byte, to the value's end */
    tockplover_part rest;
} tockplover_address;

/* What a message says. */
typedef struct {
    tockplover_refusal refusal;
    /* one of enum tockplover_outcome; with TOCKPLOVER_NONE the message is passed over, and only its type is told */
    uint8_t outcome;
    /* one of enum tockplover_message_type, or the unknown odd type of a message that is passed over */
    uint64_t kind;
    /* init's globalfeatures, the channel of an error or a warning; else 0 and 0 */
    tockplover_part first;
    /* init's features, the data of an error or a warning, the filler of a ping or a pong */
    tockplover_part last;
    /* how many pong bytes a ping wants; else 0 */
    uint64_t wanted;
    /* the extension stream behind the payload */
    tockplover_part extension;
    /* its outer records */
    size_t records;
    /* those among them whose type is known */
    size_t known;
} tockplover_message;

/* How a ping was answered. */
typedef struct {
    tockplover_refusal refusal;
    /* one of enum tockplover_outcome; with TOCKPLOVER_NONE the ping gets no pong */
    uint8_t outcome;
    /* how many bytes stand at the front of the output */
    size_t size;
} tockplover_reply;

/* What an invoice says; its groups and its fields stand in the outputs. */
typedef struct {
    tockplover_refusal refusal;
    /* one of enum tockplover_prefix */
    uint8_t prefix;
    /* 1 where the text names an amount, 0 where it names none */
    uint8_t asked;
    /* the amount's characters in the text, its letter included; without an amount 4 and 0 */
    tockplover_part amount;
    /* the amount in millisatoshi, exact and at least 1; 0 exactly where asked is 0 */
    uint64_t msat;
    /* seconds since 1970 */
    uint64_t time;
    /* how many groups of five bits there are, less the checksum's: TOCKPLOVER_TIME_GROUPS, then the fields', then TOCKPLOVER_SIGNATURE_GROUPS */
    size_t groups;
    /* how many fields there are */
    size_t fields;
    /* the row, among the fields, of the first usable payment hash */
    size_t payment;
    /* seconds; 3,600 where the text gives none */
    uint64_t expiry;
    /* blocks; 9 where the text gives none */
    uint64_t delta;
} tockplover_invoice;

/* An entry of a route; its key stands in the output. */
typedef struct {
    tockplover_refusal refusal;
    /* one of enum tockplover_outcome; with TOCKPLOVER_NONE there is no such entry */
    uint8_t outcome;
    /* the channel's number */
    uint64_t channel;
    /* the fee */
    uint64_t fee;
    /* the blocks that the hop asks for */
    uint16_t delta;
} tockplover_entry;

/* How many rules the till profile has. */
#define TOCKPLOVER_RULES 6

/* The rules of the till profile that an invoice breaks. */
typedef struct {
    tockplover_refusal refusal;
    /* how many rules are broken: 0 for a clean invoice, TOCKPLOVER_RULES at most */
    size_t count;
    /* their numbers, of enum tockplover_rule, rising, at the front; 0 behind them */
    uint8_t rules[TOCKPLOVER_RULES];
} tockplover_profile;

/* The number high * 2^64 + low. */
typedef struct {
    /* its upper 64 bits */
    uint64_t high;
    /* its lower 64 bits */
    uint64_t low;
} tockplover_halves;

/* The most books of a run, the most rows of its figures, and the numbers of a row. */
#define TOCKPLOVER_BOOKS_MOST 1000
#define TOCKPLOVER_PAIRS_MOST 512
#define TOCKPLOVER_PAIR_NUMBERS 7

/* The month-end figures of the books so far: 28,720 bytes, which go in and come back by value. */
typedef struct {
    /* the books given, those too that were refused */
    uint64_t books;
    /* how many rows there are; over TOCKPLOVER_PAIRS_MOST where the figures are none, and then all other numbers are 0 */
    uint64_t pairs;
    /* a row for each pair of namespace and type that was met, rising by namespace, then type: both of these, known records, their value bytes,
     * passed-over records, their value bytes, and the bytes spent on the types and lengths of all of them; what stands behind the last row says
     * nothing */
    uint64_t rows[TOCKPLOVER_PAIRS_MOST * TOCKPLOVER_PAIR_NUMBERS];
    /* the accepted invoices */
    uint64_t invoices;
    /* those among them without an amount */
    uint64_t unpriced;
    /* the sum of the others' amounts, in millisatoshi */
    tockplover_halves sum;
} tockplover_figures;

/* How a book was taken. */
typedef struct {
    tockplover_refusal refusal;
    /* the figures after it, on a refusal too */
    tockplover_figures figures;
} tockplover_added;

/* A sum in satoshi. */
typedef struct {
    /* TOCKPLOVER_ACCEPTED, or TOCKPLOVER_NONE where it is no whole number of satoshis */
    uint8_t outcome;
    /* the sum; both halves are 0 where there is none */
    tockplover_halves satoshi;
} tockplover_satoshi;

/* What the mender changed. */
typedef struct {
    /* the records whose place among the kept ones differs between the old and the new order */
    size_t moved;
    /* the copies dropped */
    size_t dropped;
    /* the types and lengths respelled in the records kept */
    size_t respelled;
    /* the bytes cut off at the end */
    size_t cut;
} tockplover_changes;

/* How a stream was mended. */
typedef struct {
    tockplover_refusal refusal;
    /* how many bytes the mended stream takes at the front of the output */
    size_t size;
    /* what was changed */
    tockplover_changes changes;
} tockplover_mended;

/* The groups at the front of an invoice, which hold its time, and those at its end. */
#define TOCKPLOVER_TIME_GROUPS 7
#define TOCKPLOVER_SIGNATURE_GROUPS 104

/* An output of so many elements suffices for every answer. */
#define TOCKPLOVER_BIGSIZE_MOST 9
#define TOCKPLOVER_STREAM_MOST 65535
#define TOCKPLOVER_MESSAGE_MOST 65535
#define TOCKPLOVER_INVOICE_MOST 4096
#define TOCKPLOVER_FIELD_MOST 1026
#define TOCKPLOVER_KEY_SIZE 33
#define TOCKPLOVER_REPORT_MOST 1966198
#define TOCKPLOVER_DECIMAL_MOST 39

/** The version of the archive.
 *
 *  Returns: major * 10000 + minor * 100 + patch; TOCKPLOVER_VERSION_NUMBER where header and archive belong together.
 */
uint64_t tockplover_version(void);

/*
 * BigSize
 */

/** Reads the number at the front of some bytes; the bytes behind it are not looked at.
 *
 *  Returns: the number and its width.
 *           Refused: 13 where there are no bytes, 1, 2; 13 and 1 tell how many bytes are missing.
 *  In:      bytes:     the bytes
 *           bytes_len: how many there are
 */
tockplover_number tockplover_bigsize_read(const uint8_t *bytes, size_t bytes_len);

/** Writes the shortest form of a number.
 *
 *  Returns: how many bytes were written.
 *           Refused: 12.
 *  In:      value:   any number
 *  Out:     out:     the bytes, at the front
 *           out_len: how long the output is; TOCKPLOVER_BIGSIZE_MOST always suffices
 */
tockplover_size tockplover_bigsize_write(uint64_t value, uint8_t *out, size_t out_len);

/*
 * The table of known types: a run of 64-bit numbers, four to a row (namespace 0 to 63, type, form, parameter), at most 256 rows, rising
 * by namespace, then type. An empty table knows nothing.
 *
 *  form 0: any bytes; parameter 0                                form 4: a compressed point, then n bytes; n to 65,502
 *  form 1: exactly n bytes; n to 65,535                          form 5: a stream in namespace n; n to 63
 *  form 2: an integer; n is 2, 4 or 8                            form 6: an address descriptor; parameter 0
 *  form 3: zero or more items of n bytes; n from 1 to 65,535
 */

/** Whether a run of numbers is a table. Every function that takes a table asks this first.
 *
 *  Returns: the refusal; number 0 where it is one.
 *           Refused: 60, then row by row 61, 62, 63.
 *  In:      table:     the numbers
 *           table_len: how many there are (not how many rows)
 */
tockplover_refusal tockplover_table_check(const uint64_t *table, size_t table_len);

/** Whether a newer table holds every row of an older one unchanged.
 *
 *  Returns: the outcome; the refusal of the older table or else of the newer, by tockplover_table_check; or the first row that lacks.
 *  In:      older, older_len: the older table
 *           newer, newer_len: the newer table
 */
tockplover_extension tockplover_table_extends(const uint64_t *older, size_t older_len, const uint64_t *newer, size_t newer_len);

/*
 * Record streams
 */

/** Judges a stream by a table and counts its outer records.
 *
 *  Returns: the counts.
 *           Refused: the table's 60 to 63, 61 for a namespace over 63, 14, then record by record 1 to 11, of which 1, 4 and 6 tell how many bytes
 *           are missing.
 *  In:      table, table_len:   the table of known types
 *           name_space:         the stream's namespace
 *           stream, stream_len: the stream
 */
tockplover_counts tockplover_stream_count(
    const uint64_t *table, size_t table_len, uint64_t name_space, const uint8_t *stream, size_t stream_len);

/** Reads a stream into an index: for each outer record its type, its value's start and length in the stream, and 1 where the table knows
 *  the type, else 0.
 *
 *  Returns: the counts; the index has 4 * records numbers at its front.
 *           Refused: as tockplover_stream_count, then 12.
 *  In:      table, table_len:   the table of known types
 *           name_space:         the stream's namespace
 *           stream, stream_len: the stream
 *  Out:     index:     the rows, at the front
 *           index_len: how many numbers it has room for; 2 * stream_len always suffices
 */
tockplover_counts tockplover_stream_read(
    const uint64_t *table,
    size_t table_len,
    uint64_t name_space,
    const uint8_t *stream,
    size_t stream_len,
    uint64_t *index,
    size_t index_len);

/** Whether a type is among the outer records of a stream, known or not.
 *
 *  Returns: the refusal; number 0 for yes.
 *           Refused: as tockplover_stream_count, then 15 for no, with the asked type.
 *  In:      table, table_len:   the table of known types
 *           name_space:         the stream's namespace
 *           stream, stream_len: the stream
 *           kind:               the type
 */
tockplover_refusal tockplover_stream_contains(
    const uint64_t *table, size_t table_len, uint64_t name_space, const uint8_t *stream, size_t stream_len, uint64_t kind);

/** Where the value of a type lies in a stream. It is stream[start] to stream[start + size - 1]; an empty value has the size 0.
 *
 *  Returns: the value's start and size.
 *           Refused: as tockplover_stream_contains.
 *  In:      as tockplover_stream_contains
 */
tockplover_span tockplover_stream_value(
    const uint64_t *table, size_t table_len, uint64_t name_space, const uint8_t *stream, size_t stream_len, uint64_t kind);

/** Writes a stream from triples (type, start, length), each of which names a value in the source.
 *
 *  Returns: how many bytes were written.
 *           Refused: the table's 60 to 63, 61 for a namespace over 63, 16 for triples not in threes, then triple by triple 16, 3, 7 and
 *           the value's 1 to 11; then 14 and 12. What is cut short in a stream inside the value (1, 4, 6) tells how many bytes are missing, with the
 *           triple's place and type.
 *  In:      table, table_len:     the table of known types
 *           name_space:           the stream's namespace
 *           triples, triples_len: the numbers of the triples, three to a record
 *           source, source_len:   the bytes that the values lie in
 *  Out:     out:     the stream, at the front
 *           out_len: how long the output is; TOCKPLOVER_STREAM_MOST always suffices
 */
tockplover_size tockplover_stream_write(
    const uint64_t *table,
    size_t table_len,
    uint64_t name_space,
    const uint64_t *triples,
    size_t triples_len,
    const uint8_t *source,
    size_t source_len,
    uint8_t *out,
    size_t out_len);

/*
 * Address descriptors: a type byte, and behind it a rest by the type, as enum tockplover_address_type says. A port has two bytes, the high one
 * first. An unknown type is kept as bytes: its rest may be any, also none.
 */

/** Reads a value as an address descriptor, such as that of init's remote_addr.
 *
 *  Returns: its type, and where its rest lies in the value. The rest is value[1] to value[value_len - 1].
 *           Refused: 8.
 *  In:      value, value_len: the value
 */
tockplover_address tockplover_address_read(const uint8_t *value, size_t value_len);

/** Writes an address descriptor.
 *
 *  Returns: how many bytes were written.
 *           Refused: 8 where the rest is not one of its type, 12.
 *  In:      kind:           one of enum tockplover_address_type, or another
 *           rest, rest_len: what stands behind the type byte
 *  Out:     out:     the descriptor, at the front
 *           out_len: how long the output is; rest_len + 1 suffices
 */
tockplover_size tockplover_address_write(uint8_t kind, const uint8_t *rest, size_t rest_len, uint8_t *out, size_t out_len);

/*
 * Messages
 */

/** Reads a message: init, error, warning, ping or pong. Its extension is judged by a table of its own, which knows init's networks (1, items of
 *  32 bytes) and remote_addr (3, an address descriptor), and is read into an index as tockplover_stream_read does; starts count from the
 *  message's first byte.
 *
 *  Returns: the outcome and what the message says. A message of an unknown odd type is passed over.
 *           Refused: 21, 20, 22, the extension's 1 to 11, 12. An extension that is cut short (1, 4, 6) tells how many bytes are missing, a payload
 *           (20) does not.
 *  In:      message, message_len: the message, from its type on
 *  Out:     index:     the extension's rows, at the front; unchanged where the message is passed over
 *           index_len: how many numbers it has room for; 2 * message_len always suffices
 */
tockplover_message tockplover_message_read(const uint8_t *message, size_t message_len, uint64_t *index, size_t index_len);

/** Where the address of an init lies in the message: the value of its record 3 (remote_addr), for tockplover_address_read. It is
 *  message[start] to message[start + size - 1].
 *
 *  Returns: the value's start and size.
 *           Refused: as tockplover_message_read, but never 12; then 15 with the type 3 where there is none, for every other message and one
 *           that is passed over.
 *  In:      message, message_len: the message, from its type on
 */
tockplover_span tockplover_message_address(const uint8_t *message, size_t message_len);

/** Writes a message with its extension.
 *
 *  Returns: how many bytes were written.
 *           Refused: 22 for a type that is none of the five, 20 for a channel that is not 32 bytes, the extension's refusals as in
 *           tockplover_stream_write, 21, 12.
 *  In:      kind:                 one of enum tockplover_message_type
 *           first, first_len:     init's globalfeatures, the channel of an error or a warning; of others not looked at
 *           last, last_len:       init's features, the data of an error or a warning, the filler of a ping or a pong
 *           wanted:               how many pong bytes a ping wants; of others not looked at
 *           triples, triples_len: the extension's triples, as in tockplover_stream_write; none for no extension
 *           source, source_len:   the bytes that their values lie in
 *  Out:     out:     the message, at the front
 *           out_len: how long the output is; TOCKPLOVER_MESSAGE_MOST always suffices
 */
tockplover_size tockplover_message_write(
    uint64_t kind,
    const uint8_t *first,
    size_t first_len,
    const uint8_t *last,
    size_t last_len,
    uint16_t wanted,
    const uint64_t *triples,
    size_t triples_len,
    const uint8_t *source,
    size_t source_len,
    uint8_t *out,
    size_t out_len);

/** The group that a message type belongs to.
 *
 *  Returns: 1 for 0 to 31, 2 to 127, 3 to 255, 4 to 511, 5 for 32,768 and up, otherwise 0.
 *  In:      kind: a message type
 */
uint64_t tockplover_message_group(uint64_t kind);

/** Joins init's two feature maps by OR, aligned at their last bytes.
 *
 *  Returns: how many bytes were written: as many as the longer map has.
 *           Refused: 12.
 *  In:      a, a_len: a feature map
 *           b, b_len: the other
 *  Out:     out:     the joined map, at the front
 *           out_len: how long the output is
 */
tockplover_size tockplover_message_join_features(
    const uint8_t *a, size_t a_len, const uint8_t *b, size_t b_len, uint8_t *out, size_t out_len);

/** Writes the pong for a ping.
 *
 *  Returns: the outcome, and how many bytes were written. A ping that wants 65,532 bytes or more gets no pong.
 *           Refused: 12.
 *  In:      wanted: how many bytes the ping wants
 *  Out:     out:     the pong, at the front; unchanged where there is none
 *           out_len: how long the output is; wanted + 4 suffices
 */
tockplover_reply tockplover_message_pong(uint64_t wanted, uint8_t *out, size_t out_len);

/*
 * Invoices
 */

/** Reads an invoice in upper or lower case. No signature is checked.
 *
 *  Returns: what the invoice says. The groups have groups bytes at their front, each of 0 to 31, and the index 3 * fields numbers: for each
 *           field its type, the first group of its content and its group count.
 *           Refused: 30 to 40, 12 where either output is too short.
 *  In:      text, text_len: the characters, without a zero byte at their end
 *  Out:     groups:     the groups of five bits less the checksum, at the front
 *           groups_len: how many it has room for; text_len always suffices
 *           index:      the fields, at the front
 *           index_len:  how many numbers it has room for; text_len always suffices
 */
tockplover_invoice tockplover_invoice_read(
    const uint8_t *text, size_t text_len, uint8_t *groups, size_t groups_len, uint64_t *index, size_t index_len);

/** Writes the text of an invoice, in lower case. No signature is made.
 *
 *  Returns: how many characters were written; there is no zero byte behind them.
 *           Refused: 42, 34, 36, 37, 38 (also for a signature not of 104 groups), 39, 40, 30, 12.
 *  In:      prefix:                   one of enum tockplover_prefix
 *           amount, amount_len:       the amount's characters in either case; none for no amount. With the letter p the last digit must be 0,
 *                                     else 37
 *           time:                     seconds since 1970
 *           fields, fields_len:       the groups of all fields, one behind the other
 *           signature, signature_len: the TOCKPLOVER_SIGNATURE_GROUPS groups of the signature
 *  Out:     out:     the text, at the front
 *           out_len: how long the output is; TOCKPLOVER_INVOICE_MOST always suffices
 */
tockplover_size tockplover_invoice_write(
    uint8_t prefix,
    const uint8_t *amount,
    size_t amount_len,
    uint64_t time,
    const uint8_t *fields,
    size_t fields_len,
    const uint8_t *signature,
    size_t signature_len,
    uint8_t *out,
    size_t out_len);

/** The whole bytes that a field's groups hold.
 *
 *  Returns: how many bytes were written.
 *           Refused: 16 where the field reaches outside the groups, 34 with the place of a group above 31, 12.
 *  In:      groups, groups_len: the groups of an invoice that was read
 *           start:              the first group of the field's content
 *           size:               how many groups it has
 *  Out:     out:     the bytes, at the front
 *           out_len: how long the output is; size always suffices
 */
tockplover_size tockplover_invoice_field_bytes(
    const uint8_t *groups, size_t groups_len, uint64_t start, uint64_t size, uint8_t *out, size_t out_len);

/** The number that a field's groups spell, as those of x and c do.
 *
 *  Returns: the number.
 *           Refused: 16, 34, 38 for more than 12 groups.
 *  In:      as tockplover_invoice_field_bytes
 */
tockplover_value tockplover_invoice_field_number(const uint8_t *groups, size_t groups_len, uint64_t start, uint64_t size);

/** How many entries a route has.
 *
 *  Returns: the count; 0 where the field is no usable r.
 *           Refused: 16, 34.
 *  In:      groups, groups_len, start, size: as tockplover_invoice_field_bytes
 *           kind:                            the field's type; TOCKPLOVER_FIELD_ROUTE for r
 */
tockplover_value tockplover_invoice_route_size(
    const uint8_t *groups, size_t groups_len, uint64_t kind, uint64_t start, uint64_t size);

/** An entry of a route.
 *
 *  Returns: the outcome, none where the field is no usable r or has fewer entries, and the entry's channel, fee and delta.
 *           Refused: 16, 34, 12.
 *  In:      groups, groups_len, kind, start, size: as tockplover_invoice_route_size
 *           k:                                     which entry, from 0
 *  Out:     key:     the entry's key of TOCKPLOVER_KEY_SIZE bytes, at the front; unchanged where there is no such entry
 *           key_len: how long the output is
 */
tockplover_entry tockplover_invoice_route_entry(
    const uint8_t *groups, size_t groups_len, uint64_t kind, uint64_t start, uint64_t size, uint64_t k, uint8_t *key, size_t key_len);

/** Makes a field of bytes, as p, h, n, d and r are: its type group, two length groups and its content, for tockplover_invoice_write.
 *
 *  Returns: how many groups were written.
 *           Refused: 34 for a type above 31, 38 for more than 1,023 groups, 12.
 *  In:      kind:             the field's type, of enum tockplover_field_type or another
 *           bytes, bytes_len: its content
 *  Out:     out:     the groups, at the front
 *           out_len: how many it has room for; TOCKPLOVER_FIELD_MOST always suffices
 */
tockplover_size tockplover_invoice_field_from_bytes(
    uint8_t kind, const uint8_t *bytes, size_t bytes_len, uint8_t *out, size_t out_len);

/** Makes a field of a number, as x and c are, in as few groups as hold it.
 *
 *  Returns: how many groups were written.
 *           Refused: 34 for a type above 31, 38 for a number that needs more than 12 groups, 12.
 *  In:      kind:   the field's type, of enum tockplover_field_type or another
 *           number: its content, below 2^60
 *  Out:     out:     the groups, at the front
 *           out_len: how many it has room for; 15 always suffices
 */
tockplover_size tockplover_invoice_field_from_number(uint8_t kind, uint64_t number, uint8_t *out, size_t out_len);

/*
 * The till profile: six rules that a till's own invoices have to keep
 */

/** Which rules of the till profile an invoice in upper or lower case breaks. Every field of a kind is judged, not only the first that counts.
 *
 *  Returns: the broken rules, each once; none for a clean invoice.
 *           Refused: 30 to 40, as tockplover_invoice_read, which asks for none of the rules; never 12.
 *  In:      text, text_len: the characters, without a zero byte at their end
 */
tockplover_profile tockplover_till_profile(const uint8_t *text, size_t text_len);

/*
 * Money
 */

/** Turns millisatoshis into satoshis.
 *
 *  Returns: the satoshis.
 *           Refused: 43 for a count that does not divide by 1,000.
 *  In:      msat: a count of millisatoshis
 */
tockplover_value tockplover_money_to_sat(uint64_t msat);

/*
 * The recording book
 */

/** Writes the report on a recording book, as text in lines. A bad book is no refusal: its report is "book refused" and the number.
 *  The line of a stream or a message that is cut short (1, 4, 6) ends in "missing" and how many bytes it lacks.
 *
 *  Returns: how many characters were written; there is no zero byte behind them.
 *           Refused: 12.
 *  In:      book, book_len: the book
 *  Out:     out:     the text, at the front
 *           out_len: how long the output is; TOCKPLOVER_REPORT_MOST always suffices
 */
tockplover_size tockplover_book_report(const uint8_t *book, size_t book_len, uint8_t *out, size_t out_len);

/*
 * Month-end figures: exact numbers over the books of a run, given one after the other. A run begins with empty figures. With each book go in the
 * figures that came back with the book before, unaltered: nothing marks them, so that a caller who changes a number between two books gets
 * figures of other books than those given, or none where the rows no longer rise.
 */

/** The figures before the first book.
 *
 *  Returns: the figures, all numbers 0.
 */
tockplover_figures tockplover_month_empty(void);

/** Adds a book: the outer records of its accepted streams, judged by its own table, and its accepted invoices. What lies inside a record's value
 *  is value bytes.
 *
 *  Returns: the figures with the book.
 *           Refused: 73 where the figures that went in are none; 76 for a book behind the thousandth, which is not looked at; the book's own
 *           72, 70, 71, 60 to 63; 73 where there would be over TOCKPLOVER_PAIRS_MOST different pairs of namespace and type.
 *           On every refusal but 73 the figures are those so far: with 76 as they went in, with the book's own refusal one book more. With
 *           73 they are none, and stay so: all later books of the run get 73, even past TOCKPLOVER_BOOKS_MOST.
 *  In:      figures:        those that came back with the book before, or those of tockplover_month_empty; any figures get an answer
 *           book, book_len: the book
 */
tockplover_added tockplover_month_add(tockplover_figures figures, const uint8_t *book, size_t book_len);

/** Turns a sum in millisatoshi into satoshi.
 *
 *  Returns: the outcome, and the satoshi where the sum divides by 1,000.
 *  In:      high, low: the sum's halves
 */
tockplover_satoshi tockplover_month_satoshi(uint64_t high, uint64_t low);

/** Writes a sum in decimal digits.
 *
 *  Returns: how many digits were written; there is no zero byte behind them.
 *           Refused: 12.
 *  In:      high, low: the sum's halves
 *  Out:     out:     the digits, at the front
 *           out_len: how long the output is; TOCKPLOVER_DECIMAL_MOST always suffices
 */
tockplover_size tockplover_month_decimal(uint64_t high, uint64_t low, uint8_t *out, size_t out_len);

/*
 * The mender of streams that the old gateway wrote, with records out of order, doubled and spelled long
 */

/** Mends a stream: writes its records in rising order, each once and spelled shortest. Of records of one type with the same value the first
 *  stays, a record that is cut at the end goes with all behind it, and values are not judged. A right stream comes out the same. The call takes up
 *  to about 200,000 bytes of the stack.
 *
 *  Returns: how many bytes were written, and what was changed.
 *           Refused: 14; 80 where records of one type have different values, with the place and the type of the first record that disagrees
 *           with an earlier one; 12.
 *  In:      stream, stream_len: the old stream
 *  Out:     out:     the mended stream, at the front
 *           out_len: how long the output is; a mended stream never takes more bytes than the old one, so that stream_len always suffices
 */
tockplover_mended tockplover_mend(const uint8_t *stream, size_t stream_len, uint8_t *out, size_t out_len);

#ifdef __cplusplus
}
#endif

#endif
