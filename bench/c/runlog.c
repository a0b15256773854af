/* runlog in C: a line for each event of events.bin on config.bin (N1 to N8). */
#include "core.h"

int main(void) {
    run_files(false, NULL);
    return 0;
}
