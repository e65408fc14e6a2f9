/* Memory is refused to each maker: one allocation after another, and then all from each on, until it makes. It answers VFDEV_NO_MEMORY, nothing
 * that it took is left, and the same handle can be made of then. Linked so that what the archive takes comes through here:
 * -Wl,--wrap=malloc,--wrap=realloc,--wrap=free. It writes nothing, and ends with 0, where all is as it should be. */
#include "vfdev_card.h"

#include <stdio.h>
#include <stdlib.h>

#define EQUAL(got, due) equal(__LINE__, (got), (due))

enum { SIZE = 4096 };

void *__real_malloc(size_t size);
void *__real_realloc(void *at, size_t size);
void __real_free(void *at);
void *__wrap_malloc(size_t size);
void *__wrap_realloc(void *at, size_t size);
void __wrap_free(void *at);

/* How often memory was asked for, how many pieces are held, which request is refused, and whether all behind it are. */
static size_t asked, held, refused;
static bool are_all;

static uint8_t memory[2][SIZE];
static vfdev device = VFDEV_NONE;
static vfdev_card card = VFDEV_CARD_NONE;

static void equal(int line, unsigned long long got, unsigned long long due)
{
    if (got != due) {
        fprintf(stderr, "refused.c:%d: %llu, and not %llu; request %zu was refused\n", line, got, due, refused);
        exit(1);
    }
}

static bool is_refused(void)
{
    size_t number = asked++;
    return are_all ? number >= refused : number == refused;
}

void *__wrap_malloc(size_t size)
{
    void *at = is_refused() ? NULL : __real_malloc(size);
    held += at != NULL;
    return at;
}

void *__wrap_realloc(void *at, size_t size)
{
    void *now = is_refused() ? NULL : __real_realloc(at, size);
    held += at == NULL && now != NULL;
    return now;
}

void __wrap_free(void *at)
{
    held -= at != NULL;
    __real_free(at);
}

static uint32_t own(void) { return vfdev_make(&device, 64, SIZE, 9018); }
static uint32_t recorded(void) { return vfdev_make_recorded(&device, 2, SIZE, 1518, 16); }
static uint32_t of_guests(void) { return vfdev_make_guests(&device, 64, 9018, 0); }

static uint32_t of_a_card(void)
{
    static const uint16_t ids[] = {0, 7};
    return vfdev_card_make(&card, 64, ids, 2, VFDEV_CARD_NOBODY, 9018, 0);
}

static uint32_t lent(void)
{
    for (size_t i = 0; i < 2; i++) {
        enum vfdev_fault answer = vfdev_lend(&device, (vfdev_block){memory[i], SIZE});
        if (answer != VFDEV_OK)
            return answer;
    }
    return vfdev_make_lent(&device, 1518);
}

static void freed(void)
{
    vfdev_free(&device);
    vfdev_card_free(&card);
    EQUAL(held, 0);
}

/* It makes once no request is the refused one. */
static void makes_in_the_end(uint32_t (*make)(void))
{
    for (refused = 0;; refused++) {
        asked = 0;
        uint32_t answer = make();
        if (asked <= refused) {
            EQUAL(answer, VFDEV_OK);
            freed();
            break;
        }
        EQUAL(answer, VFDEV_NO_MEMORY);
        /* (blocks that were lent before are lent still) */
        freed();
    }
    EQUAL(refused > 0, true);
}

int main(void)
{
    static uint32_t (*const MAKERS[])(void) = {own, recorded, lent, of_guests, of_a_card};
    for (size_t i = 0; i < sizeof MAKERS / sizeof *MAKERS; i++) {
        are_all = false;
        makes_in_the_end(MAKERS[i]);
        are_all = true;
        makes_in_the_end(MAKERS[i]);
    }
    return 0;
}
