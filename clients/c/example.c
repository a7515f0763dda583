/* Two documents, a find and its numbers: cc example.c out/libfunnel.a */
#include "funnel.h"

#include <inttypes.h>
#include <stdio.h>
#include <stdlib.h>
#include <string.h>

static void check(uint32_t code) {
    if (code != FUNNEL_DONE) {
        fprintf(stderr, "funnel answers %" PRIu32 "\n", code);
        exit(1);
    }
}

int main(void) {
    const char *texts[] = {"The cat sat", "a black cat"};
    funnel index = {0};
    uint64_t fault, place, count, ids[2];
    check(funnel_open(&index, (const uint8_t *)"{}", 2, &fault));
    for (uint64_t id = 0; id < 2; id++) {
        check(funnel_add(&index, 7 + id, (const uint8_t *)texts[id], strlen(texts[id]), &place));
        printf("added %" PRIu64 "\n", place);
    }
    check(funnel_find(&index, (const uint8_t *)"CAT", 3, &count));
    check(funnel_ids(&index, ids, 2, 0));
    for (uint64_t i = 0; i < count; i++) {
        printf("found %" PRIu64 "\n", ids[i]);
    }
    check(funnel_close(&index));
    return 0;
}
