/* The tests, one group for each call. */

#ifndef TESTS_H
#define TESTS_H

void test_compare(void);
void test_vector(void);
void test_start(void);
void test_act(void);
void test_hand_out(void);
void test_take(void);
void test_rows(void);
void test_fold(void);
void test_write_file(void);
void test_read_file(void);
void test_sab2(void);
void test_merge(void);
void test_show(void);
void test_check_order(void);
void test_index(void);
void test_listing(void);
void test_plans(void);

#endif
