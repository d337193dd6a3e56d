/* Prints the words of each number from 0 to 256, as docs/refusals.txt and behind it docs/rules.txt have them: number, meaning and advice, a tab
 * between. */
#include "tockplover.h"

#include <stdio.h>

int main(void)
{
    for (unsigned number = 0; number <= 256; number++)
        printf("%u\t%s\t%s\n", number, tockplover_meaning(number), tockplover_advice(number));
    for (unsigned number = 0; number <= 256; number++)
        printf("%u\t%s\t%s\n", number, tockplover_rule_meaning(number), tockplover_rule_advice(number));
    return 0;
}
