/* Linked with -ffast-math, a program flushes subnormals to zero from its start: voldrekka_float_state() must say so. */
#include "voldrekka.h"

int main(void)
{
    return voldrekka_float_state() ? 1 : 0;
}
