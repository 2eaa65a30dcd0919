/* Calls every C function and writes each answer as a line: the same lines on every machine, or something is wrong. Inputs: every one where they are
 * few, each bound on both sides, and random ones from a fixed seed. */
#include "calls.h"

int main(void)
{
    symbols();
    rows();
    packets();
    islands();
    timings();
    lines();
    counters();
    return summed_up();
}
