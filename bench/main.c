/* Compares what is written in Rattle with the same in C: first what they
 * answer, then how long they take. Only ratios of times are printed, taken in
 * one run: a time alone says little about the program. */

#include <stdio.h>

#include "compare.h"

int main(void)
{
    int same = covers_alike();
    same &= walks_alike();
    if (!same)
        return 1;
    puts("all versions answer alike");
    if (!print_cover_ratios())
        return 1;
    print_walk_ratios();
    return 0;
}
