/* many in C: the cases of standard input, each a run with its states and its image written again (N10, N11). */
#include "core.h"

static void print_again(const uint8_t *image, size_t m) {
    static uint8_t again[LONGEST_IMAGE], out[2 * LONGEST_IMAGE + 16];
    size_t size;
    core_begun r = read_image(image, m);
    if (r.fault || write_image(&r.core.config, again, sizeof again, &size)) return;
    write_all(out, (size_t)(put_image(out, again, size) - out));
}

int main(void) {
    static uint8_t image[65536], log[LOG_ROOM];
    for (;;) {
        uint8_t head[4];
        size_t got = read_all(0, head, sizeof head);
        if (got == 0) return 0;
        size_t m = head[0] | (size_t)head[1] << 8, n = head[2] | (size_t)head[3] << 8;
        if (got < sizeof head || read_all(0, image, m) < m || read_all(0, log, n) < n) break;
        print_run(image, m, log, n, true, NULL);
        print_again(image, m);
        write_all((const uint8_t *)".\n", 2);
    }
    write_all((const uint8_t *)"torn\n", 5);
    return 0;
}
