/* Runs the tests; says how many checks passed and failed. */

#include "check.h"
#include "tests.h"

#include <stdio.h>

static int passed, failed;

void check(int holds, const char *fact, const char *file, int line)
{
    if (holds) {
        passed++;
        return;
    }
    failed++;
    if (failed <= 20)
        printf("%s:%d: not so: %s\n", file, line, fact);
}

int main(void)
{
    test_compare();
    test_vector();
    test_start();
    test_act();
    test_hand_out();
    test_take();
    test_rows();
    test_fold();
    test_write_file();
    test_read_file();
    test_sab2();
    test_merge();
    test_show();
    test_check_order();
    test_index();
    test_listing();
    test_plans();
    printf("%d passed, %d failed\n", passed, failed);
    return failed != 0 || passed == 0;
}
