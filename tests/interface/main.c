/* usage: interface ROUNDS    how many calls each thread makes
 * Prints each line that does not hold, and ends with 1 then; else how many held. */
#include "interface.h"

int main(int count, char **words) {
    verdicts();
    explanations();
    reports();
    calls();
    exports();
    imports();
    instances();
    threads(count > 1 ? atol(words[1]) : 10000);
    if (!failed) printf("%u\n", held);
    return failed != 0;
}
