/* Calls the library from C++ with std::vector, whose data() may be NULL where it is empty. Prints a line for each fault, and the tally at the end. */
#include "tockplover.h"

#include <cstdio>
#include <string>
#include <vector>

namespace {

using bytes = std::vector<uint8_t>;
using numbers = std::vector<uint64_t>;

unsigned passed, failed;

void check(const char *name, bool right)
{
    if (right) {
        passed++;
    } else {
        failed++;
        std::printf("FAILED %s\n", name);
    }
}

void streams()
{
    const numbers table{0, 1, 2, 8}, empty_table;
    const bytes stream{1, 1, 42}, empty;
    const auto counts = tockplover_stream_count(table.data(), table.size(), 0, stream.data(), stream.size());
    check("a stream", counts.refusal.number == TOCKPLOVER_NOTHING && counts.records == 1 && counts.known == 1);
    const auto none = tockplover_stream_count(empty_table.data(), 0, 0, empty.data(), 0);
    check("no table and no stream", none.refusal.number == TOCKPLOVER_NOTHING && none.records == 0);
    const auto written = tockplover_stream_write(empty_table.data(), 0, 0, empty_table.data(), 0, empty.data(), 0, bytes().data(), 0);
    check("nothing to write", written.refusal.number == TOCKPLOVER_NOTHING && written.size == 0);
    const bytes cut{1, 5};
    const auto lacking = tockplover_stream_count(table.data(), table.size(), 0, cut.data(), cut.size()).refusal;
    check("a stream cut short", lacking.number == TOCKPLOVER_VALUE_CUT && lacking.kind == 1 && lacking.missing == 5);
    const auto mended = tockplover_mend(empty.data(), 0, bytes().data(), 0);
    check("nothing to mend", mended.refusal.number == TOCKPLOVER_NOTHING && mended.changes.cut == 0);
}

void messages()
{
    bytes out(16);
    const bytes empty;
    const numbers no_triples;
    const auto written = tockplover_message_write(
        TOCKPLOVER_MESSAGE_PING, empty.data(), 0, empty.data(), 0, 4, no_triples.data(), 0, empty.data(), 0, out.data(), out.size());
    out.resize(written.size);
    check("a ping", written.refusal.number == TOCKPLOVER_NOTHING && out == bytes{0, 18, 0, 4, 0, 0});
    const auto address = tockplover_address_write(9, empty.data(), 0, out.data(), out.size());
    check("an address without a rest", address.refusal.number == TOCKPLOVER_NOTHING && address.size == 1 && out[0] == 9);
    check("no address", tockplover_address_read(empty.data(), 0).refusal.number == TOCKPLOVER_VALUE_LENGTH);
}

void invoices()
{
    const bytes empty;
    const std::string text = "lnbc2500u1pvjluezpp5qqqsyqcyq5rqwzqfqqqsyqcyq5rqwzqfqqqsyqcyq5rqwzqfqypqdq5xysxxatsyp3k7enxv4jsxqzpu"
                             "aztrnwngzn3kdzw5hydlzf03qdgm2hdq27cqv3agm2awhz5se903vruatfhq77w3ls4evs3ch9zw97j25emudupq63nyw24cg27h2rspfj9srp";
    const auto clean = tockplover_till_profile(bytes(text.begin(), text.end()).data(), text.size());
    check("a clean invoice", clean.refusal.number == TOCKPLOVER_NOTHING && clean.count == 0 && clean.rules[0] == 0);
    const auto none = tockplover_till_profile(empty.data(), 0);
    check("no invoice", none.refusal.number == TOCKPLOVER_SEPARATOR && none.count == 0);
}

void words()
{
    const auto refusal = tockplover_bigsize_read(bytes().data(), 0).refusal;
    check("no byte to read", refusal.number == TOCKPLOVER_NOTHING_TO_READ && refusal.missing == 1);
    check("a meaning", std::string("there is no byte to read a BigSize from") == tockplover_meaning(refusal.number));
    check("an advice", !std::string(tockplover_advice(refusal.number)).empty());
    check("no advice", std::string(tockplover_advice(TOCKPLOVER_NOTHING)).empty());
    check("a rule's meaning", std::string("the amount can be spelled in fewer characters") == tockplover_rule_meaning(TOCKPLOVER_RULE_AMOUNT));
    check("a rule's advice", !std::string(tockplover_rule_advice(TOCKPLOVER_RULE_AMOUNT)).empty());
    check("the version", tockplover_version() == TOCKPLOVER_VERSION_NUMBER);
}

}

int main()
{
    streams();
    messages();
    invoices();
    words();
    std::printf("%u passed, %u failed\n", passed, failed);
    return failed != 0;
}
