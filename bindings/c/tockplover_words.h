/* What the number of each refusal and of each rule of the till profile means and what to do about it: made by tools/words from
   docs/refusals.txt and docs/rules.txt. tockplover.h includes it. */
#ifndef TOCKPLOVER_WORDS_H
#define TOCKPLOVER_WORDS_H

#include <stdint.h>

/** What a refusal's number means, in words that begin in lower case and end without a full stop.
 *
 *  Returns: a constant text that ends in a zero byte; "no number of the list" for a number that is not in the list, as 0 is not.
 *  In:      number: any number
 */
static inline const char *tockplover_meaning(uint64_t number)
{
    switch (number) {
    case 1:
        return "a record's type, or a BigSize asked alone, is cut short";
    case 2:
        return "a record's type, or a BigSize asked alone, is not in its shortest form";
    case 3:
        return "the type is not above the one before";
    case 4:
        return "the length is missing or cut short";
    case 5:
        return "the length is not in its shortest form";
    case 6:
        return "the value is cut short";
    case 7:
        return "the type is even, and the table does not know it";
    case 8:
        return "the value's length is not what its form asks";
    case 9:
        return "the integer begins with a zero byte";
    case 10:
        return "the point's first byte is neither 2 nor 3";
    case 11:
        return "the record would hold a stream, and it lies in a level 4 stream already";
    case 12:
        return "the index or the output is too short for the whole answer";
    case 13:
        return "there is no byte to read a BigSize from";
    case 14:
        return "the stream is over 65,535 bytes";
    case 15:
        return "the asked type is not among the records";
    case 16:
        return "the writer's triples are incomplete or reach outside the source, or a field reaches outside the groups";
    case 20:
        return "the message or its payload is cut short, or the writer's channel is not 32 bytes";
    case 21:
        return "the message is over 65,535 bytes";
    case 22:
        return "the message's type is even and not known; in the writer, it is none of the five";
    case 30:
        return "the text is over 4,096 characters";
    case 31:
        return "a byte of the text is outside 33 to 126";
    case 32:
        return "the text has both upper-case and lower-case letters";
    case 33:
        return "the text has no separator, nothing before it, or under 117 characters after it";
    case 34:
        return "a character is outside the alphabet, or a group or a field's type is above 31";
    case 35:
        return "the checksum does not hold";
    case 36:
        return "the prefix is not one of an invoice";
    case 37:
        return "the amount is not one of an invoice, or not in whole millisatoshi";
    case 38:
        return "the fields do not end at the signature, the signature is not of 104 groups, or a field has too many groups";
    case 39:
        return "the signature's recovery byte is above 3";
    case 40:
        return "there is no usable payment hash";
    case 42:
        return "the time is 2^35 or more";
    case 43:
        return "the millisatoshi are no whole number of satoshis";
    case 60:
        return "the table's numbers do not come in fours, or it has over 256 rows";
    case 61:
        return "a namespace is over 63";
    case 62:
        return "the table's rows do not rise";
    case 63:
        return "a row's form or parameter is not in the list of forms";
    case 70:
        return "the book is cut short";
    case 71:
        return "bytes follow the book's end";
    case 72:
        return "the book is over 65,535 bytes";
    case 73:
        return "there are over 512 different pairs of namespace and type";
    case 76:
        return "1,000 books are given already";
    case 80:
        return "two records of one type have different values";
    default:
        return "no number of the list";
    }
}

/** What to do about a refusal with this number, in words that begin in lower case and end without a full stop.
 *
 *  Returns: a constant text that ends in a zero byte; "" for a number that is not in the list, as 0 is not.
 *  In:      number: any number
 */
static inline const char *tockplover_advice(uint64_t number)
{
    switch (number) {
    case 1:
        return "have it sent again, for its end is missing; the refusal tells how many bytes it lacks, 1 to 8; of a recording that is cut at its end, tockplover mend keeps the whole records";
    case 2:
        return "have the sender spell it in as few bytes as hold it; of a recording, tockplover mend respells the types";
    case 3:
        return "have the sender put its records in rising order, each type once; tockplover mend does so with a recording";
    case 4:
        return "have it sent again, for its end is missing; the refusal tells how many bytes it lacks, 1 to 8, and 1 where it is not begun; of a recording that is cut at its end, tockplover mend keeps the whole records";
    case 5:
        return "have the sender spell it in as few bytes as hold it; of a recording, tockplover mend respells the lengths";
    case 6:
        return "have it sent again, for there are fewer bytes than the length says; the refusal tells how many it lacks; of a recording that is cut at its end, tockplover mend keeps the whole records";
    case 7:
        return "ask for the newer table, or have the post's firmware send an odd type; the reader must not guess an even one";
    case 8:
        return "compare the value with the form and parameter in the type's row; either the sender or the row is wrong";
    case 9:
        return "have the sender leave out the zero bytes at the integer's front; the number zero is an empty value";
    case 10:
        return "have the sender put a compressed point of 33 bytes at the value's front, or give the type another form in the table";
    case 11:
        return "have the sender nest its streams at most four deep";
    case 12:
        return "ask again with a longer one; nothing was written, and the function's description says which length always suffices";
    case 13:
        return "give at least one byte, which the refusal tells as missing; a number is never empty";
    case 14:
        return "split it into several streams; a recording this long may be two that ran together";
    case 15:
        return "ask for a type that the list of the stream's records has; the sender has left this one out";
    case 16:
        return "give three numbers to each record, and let every start and length lie inside what is lent";
    case 20:
        return "have the message sent again, for its end is missing; in the writer, give a channel of exactly 32 bytes";
    case 21:
        return "send less in one message; its parts and its extension share the 65,535 bytes";
    case 22:
        return "find out what sent it, for an even type must not be passed over; write only init 16, error 17, warning 1, ping 18 and pong 19";
    case 30:
        return "give one invoice alone, without what stands before or behind it";
    case 31:
        return "take out what stands at the given place; an invoice has no spaces, line ends or accented letters";
    case 32:
        return "type the whole invoice in small letters, or all of it in capitals";
    case 33:
        return "type the whole invoice: its front, such as lnbc2500u, a 1, and 117 characters or more; a part is left out, or a 1 is typed for an l";
    case 34:
        return "compare the character at the given place with the original; behind the last 1 there are digits and letters, but no b, i or o";
    case 35:
        return "compare the invoice with the original character by character, or ask for it again: a character is mistyped, left out or exchanged";
    case 36:
        return "ask for an invoice that begins with lnbc, or with lntb for test money; to the writer they are 1 and 2";
    case 37:
        return "ask for a new invoice; an amount is 1 to 19 digits without a zero in front, then at most one of m, u, n and p (with p the last digit is 0), and 21,000,000 bitcoin at most";
    case 38:
        return "ask for a new invoice from another wallet; the checksum holds, so this one was made wrong and not mistyped; a field that is written has at most 1,023 groups, a number's 12";
    case 39:
        return "ask for a new invoice from another wallet; the checksum holds, so this one was made wrong and not mistyped";
    case 40:
        return "ask for a new invoice from another wallet, for this one cannot be paid; a payment hash has 32 bytes";
    case 42:
        return "give the time in seconds since 1970; milliseconds are too many";
    case 43:
        return "keep the amount in millisatoshi; nothing is ever rounded";
    case 60:
        return "give each row its namespace, type, form and parameter, and the table at most 256 rows";
    case 61:
        return "use a namespace from 0 to 63, in the table's rows and for the stream";
    case 62:
        return "sort the rows by namespace, then type, and keep each pair once";
    case 63:
        return "compare the row with the list of forms: a form from 0 to 6, and a parameter that this form allows";
    case 70:
        return "copy the book again from where it was recorded; its end is missing, or a count in it is too high";
    case 71:
        return "copy the book again from where it was recorded; two books may have run together, or a count in it is too low";
    case 72:
        return "record the day in several books of at most 65,535 bytes each";
    case 73:
        return "give fewer books at once, such as those of one post; a program begins anew with empty figures, and hands each book the last ones unaltered";
    case 76:
        return "give the further books to a run of their own";
    case 80:
        return "ask the post which of the two is right and have it sent again; nothing here chooses between them";
    default:
        return "";
    }
}

/** What breaks the till profile's rule with this number, in words that begin in lower case and end without a full stop.
 *
 *  Returns: a constant text that ends in a zero byte; "no number of the list" for a number that is not in the list, as 0 is not.
 *  In:      number: any number
 */
static inline const char *tockplover_rule_meaning(uint64_t number)
{
    switch (number) {
    case 1:
        return "there is not exactly one usable p, the payment hash";
    case 2:
        return "there is not exactly one field among d, the description, and usable h, the description hash";
    case 3:
        return "a usable x, the expiry, c, the min_final_cltv_expiry, or n, the payee key, stands more than once";
    case 4:
        return "a d, the description, or a usable p, h, n or r (payment hash, description hash, payee key, route) has padding bits that are not zero, or a spare group";
    case 5:
        return "a usable x, the expiry, or c, the min_final_cltv_expiry, begins with a zero group";
    case 6:
        return "the amount can be spelled in fewer characters";
    default:
        return "no number of the list";
    }
}

/** What to do where the rule with this number is broken, in words that begin in lower case and end without a full stop.
 *
 *  Returns: a constant text that ends in a zero byte; "" for a number that is not in the list, as 0 is not.
 *  In:      number: any number
 */
static inline const char *tockplover_rule_advice(uint64_t number)
{
    switch (number) {
    case 1:
        return "have the till write one p of 52 groups and no second one; an invoice without any is refused with 40 before the rules are judged";
    case 2:
        return "have the till write one d, or for a long description one h of 52 groups in its place; a d without text counts too";
    case 3:
        return "have the till write each of the three once at most; of several x or c a reader uses the first usable one";
    case 4:
        return "have the till fill the bits behind the last whole byte with zeros, and write no more groups (characters of five bits) than the bytes need";
    case 5:
        return "have the till leave out the zero groups, the letter q, at the number's front; the number zero is a field of no groups";
    case 6:
        return "have the till use the letter of m, u, n and p, or none, that makes the amount shortest, as 1m and not 1000u";
    default:
        return "";
    }
}

#endif
