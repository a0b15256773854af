/* memlog in C: the lines of runlog, with the window that memory.bin begins, and then that window (N26 to N28). */
#include "core.h"

#include <string.h>

int main(void) {
    static uint8_t memory[WINDOW_SIZE];
    if (read_file("memory.bin", memory, sizeof memory) <= 0) memset(memory, 0, sizeof memory);
    run_files(false, memory);
    return 0;
}
