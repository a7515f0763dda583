/* Uses the library for C wrongly, opens and closes many handles, and lets each allocation fail in turn: built with
 * -Wl,--wrap=malloc,--wrap=realloc, with which the library's allocations come here. */
#include "funnel.h"

#include <inttypes.h>
#include <stdio.h>
#include <stdlib.h>

void *__real_malloc(size_t size);
void *__real_realloc(void *at, size_t size);

static uint64_t left = UINT64_MAX; /* allocations before one fails */

static bool fails(void) {
    return left != UINT64_MAX && left-- == 0;
}

void *__wrap_malloc(size_t size) {
    return fails() ? NULL : __real_malloc(size);
}

void *__wrap_realloc(void *at, size_t size) {
    return fails() ? NULL : __real_realloc(at, size);
}

/* The bytes of a text, and how many there are. */
#define TEXT(text) (const uint8_t *)(text), sizeof(text) - 1

/* Every call on a handle without an index tells that, and leaves all as it was. */
static void use_closed(funnel *handle) {
    uint64_t number = 5, other = 6, ids[2] = {7, 8};
    uint8_t out[2] = {1, 2};
    funnel_numbers numbers = {.documents = 9};
    uint32_t codes[] = {
        funnel_close(handle), funnel_add(handle, 1, TEXT("a"), &number), funnel_put(handle, 1, TEXT("a"), &number, &other),
        funnel_delete(handle, 1, &number), funnel_get(handle, 1, &number, &other), funnel_find(handle, TEXT("a"), &number),
        funnel_query(handle, TEXT("a"), &number), funnel_count(handle, true, NULL, 0, &number),
        funnel_newest(handle, 1, true, NULL, 0, &number), funnel_oldest(handle, 1, false, TEXT("a"), &number),
        funnel_place(handle, &number), funnel_journal(handle, 0, &number), funnel_stats(handle, &numbers),
        funnel_fit(handle, 10, TEXT("add 1 a"), &number), funnel_ids(handle, ids, 2, 0), funnel_bytes(handle, out, 2, 0),
    };
    int closed = 0, calls = sizeof codes / sizeof *codes;
    for (int i = 0; i < calls; i++) {
        closed += codes[i] == FUNNEL_CLOSED;
    }
    bool same = number == 5 && other == 6 && ids[0] == 7 && ids[1] == 8 && out[0] == 1 && out[1] == 2 && numbers.documents == 9 && !handle->index;
    printf("%d of %d calls tell that nothing is open, and leave all as it was: %s\n", closed, calls, same ? "yes" : "no");
}

static void use_wrongly(void) {
    funnel handle = {0};
    uint64_t number = 5;
    use_closed(&handle);
    printf("no configuration: %" PRIu32, funnel_open(&handle, TEXT("{\"slices\":0}"), &number));
    printf(" %" PRIu64 " %s\n", number, handle.index ? "open" : "closed");
    uint32_t first = funnel_open(&handle, TEXT("{}"), &number);
    void *index = handle.index;
    printf("opened twice: %" PRIu32 " %" PRIu32 " %s\n", first, funnel_open(&handle, TEXT("{}"), &number), handle.index == index ? "same" : "other");
    number = 5;
    printf("no UTF-8: %" PRIu32, funnel_add(&handle, 1, TEXT("a\xff"), &number));
    printf(" %" PRIu64 "\n", number);
    uint32_t empty = funnel_add(&handle, 1, NULL, 0, &number);
    uint64_t ids[3] = {7, 8, 9}, length = 0;
    uint8_t text[1] = {3};
    funnel_find(&handle, NULL, 0, &number);
    funnel_ids(&handle, ids + 1, 2, 0);
    funnel_ids(&handle, ids, 3, 1);
    funnel_ids(&handle, ids, 3, SIZE_MAX);
    funnel_ids(&handle, NULL, 0, 0);
    printf("a text at null: %" PRIu32 " found %" PRIu64 " at %" PRIu64 " %" PRIu64 " %" PRIu64 "\n", empty, number, ids[0], ids[1], ids[2]);
    funnel_get(&handle, 1, &number, &length);
    funnel_bytes(&handle, text, 1, 0);
    printf("an empty text: %" PRIu64 " bytes, and none is copied: %d\n", length, text[0]);
    funnel_close(&handle);
    use_closed(&handle);
}

/* The calls of a script, of which each that finds no memory is made again without end of memory, and then answers as ever. */
static bool run_script(uint64_t until) {
    funnel handle = {0};
    uint64_t number = 0, other = 0, sum = 0, failed = 0;
    left = until;
#define CALL(call)                              \
    do {                                        \
        uint32_t code = (call);                 \
        if (code == FUNNEL_MEMORY) {            \
            failed++;                           \
            left = UINT64_MAX;                  \
            code = (call);                      \
        }                                       \
        sum = sum * 31 + code * 7 + number + other; \
    } while (0)
    CALL(funnel_open(&handle, TEXT("{\"slices\":3,\"reserve\":64,\"words\":{\"a\":2}}"), &number));
    for (uint64_t id = 0; id < 70; id++) {
        CALL(funnel_add(&handle, id, TEXT("a few words of a text"), &number));
    }
    for (uint64_t id = 0; id < 70; id += 3) {
        CALL(funnel_delete(&handle, id, &number));
        CALL(funnel_put(&handle, id + 1, TEXT("words, and more of them"), &number, &other));
    }
    CALL(funnel_get(&handle, 1, &number, &other));
    CALL(funnel_find(&handle, TEXT("words"), &number));
    CALL(funnel_query(&handle, TEXT("few | (more -a)"), &number));
    CALL(funnel_count(&handle, false, TEXT("few -a"), &number));
    CALL(funnel_newest(&handle, 5, true, TEXT("of"), &number));
    CALL(funnel_oldest(&handle, 5, false, TEXT("more"), &number));
    CALL(funnel_journal(&handle, 3, &number));
    CALL(funnel_fit(&handle, 100, TEXT("add 1 a b\nadd 2 b"), &number));
    CALL(funnel_place(&handle, &number));
    CALL(funnel_close(&handle));
    static uint64_t wanted;
    if (until == UINT64_MAX) {
        wanted = sum;
    }
    left = UINT64_MAX;
    if (sum != wanted) {
        printf("with allocation %" PRIu64 " failing the answers differ\n", until);
    }
    return failed != 0 && sum == wanted;
}

int main(int count, char **words) {
    use_wrongly();
    run_script(UINT64_MAX);
    uint64_t at = 0;
    while (run_script(at)) {
        at++;
    }
    printf("each allocation failed in turn: %s\n", at > 100 ? "yes" : "no");
    uint64_t fault, many = count > 1 ? strtoull(words[1], NULL, 10) : 0, opened = 0;
    for (uint64_t i = 0; i < many; i++) {
        funnel handle = {0};
        opened += funnel_open(&handle, TEXT("{}"), &fault) == FUNNEL_DONE && funnel_close(&handle) == FUNNEL_DONE;
    }
    printf("opened and closed: %" PRIu64 "\n", opened);
    return 0;
}
