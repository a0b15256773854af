/* statelog in C: for each event its line and the whole state (N9). */
#include "core.h"

int main(void) {
    run_files(true, NULL);
    return 0;
}
