/* Counts the steps by which a number comes down to 1: an even one is halved, an odd one becomes three times as much and one.
 * Compiled by: make steps.wasm */
int steps(unsigned number) {
    int count = 0;
    for (; number != 1; count++) number = number % 2 ? 3 * number + 1 : number / 2;
    return count;
}
