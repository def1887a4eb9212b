/* Measures the most stack that each exported call takes, over good and hostile calls that reach every answer of it. */
#include "calls.h"

int main(void) {
    calibrate();
    call_sha256();
    call_volume_phases();
    call_volume_hostile();
    call_tree();
    print_calls();
    check_answers();
    return 0;
}
