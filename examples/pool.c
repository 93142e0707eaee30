/* Goes through the calls of a pool of 2 connections, which are their ids alone here. Where there is no memory for the pool it is
 * made once more, which has to do what the first call would have done.
 *
 *     pool    writes what each call gave
 */
#include <inttypes.h>
#include <stdio.h>

#include "lughemra.h"

static struct lughemra_core pool;

static void check_out(void)
{
    struct lughemra_checked_out out = lughemra_pool_check_out(&pool);
    printf("out: refusal %" PRIu32 ", id %" PRIu64 "%s\n", out.refusal, out.id, out.is_new ? ", new" : "");
}

static void check_in(uint64_t id, bool healthy)
{
    struct lughemra_checked_in in = lughemra_pool_check_in(&pool, id, healthy);
    printf("%" PRIu64 "%s in: refusal %" PRIu32 "%s\n", id, healthy ? "" : ", broken,", in.refusal, in.kept ? ", kept" : "");
}

int main(void)
{
    uint32_t refusal = lughemra_pool_new(&pool, 2);
    if (refusal == LUGHEMRA_NO_MEMORY)
        refusal = lughemra_pool_new(&pool, 2);
    printf("new: %" PRIu32 "\n", refusal);
    check_out();
    check_out();
    check_out();
    check_in(1, true);
    check_in(2, true);
    check_out();
    check_in(2, false);
    check_in(2, true);
    check_out();
    check_out();
    printf("clear: %" PRIu32 "\n", lughemra_pool_clear(&pool));
    check_in(1, true);
    check_out();
    check_in(3, true);
    check_in(4, true);
    check_out();
    printf("close: %" PRIu32 "\n", lughemra_pool_close(&pool));
    check_in(4, true);
    check_out();
    printf("free: %" PRIu32, lughemra_free(&pool));
    printf(", %" PRIu32 "\n", lughemra_free(&pool));
    return 0;
}
