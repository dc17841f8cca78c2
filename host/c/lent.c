// The interface tried from C, on memory of every kind. The last line is `N checks passed, M failed`, and the status 0
// only if M is 0.
#include "checks.h"

_Static_assert(sizeof(telvrang_delivered) == 24, "six words");
_Static_assert(sizeof(telvrang_settled) == 8, "two words");
_Static_assert(sizeof(telvrang_reading) == 16, "an amount and two words");
_Static_assert(sizeof(telvrang_fed) == 32, "two sizes, three words and their padding");

int main(void)
{
    test_runs();
    lent_excess = EXCESS;
    test_runs();
    lent_excess = 0;
    test_lengths();
    test_nulls();
    test_refusals();
    test_pieces();
    return checks_ended();
}
