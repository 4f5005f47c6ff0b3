/*
 * watch.h - ends a test whose call does not return, or touches memory that it
 * was not given, with words that say where the test was.
 */
#ifndef TEST_WATCH_H
#define TEST_WATCH_H

#include <stdint.h>

/* For what is printed then: a signal handler may not use stdio. */
void put_text(const char *text);
void put_number(uint64_t number);

/*
 * From now on a bad access, and an alarm, which the caller sets, ends the
 * program with 1, after `place` has printed where it was.
 */
void watch_calls(void (*place)(void));

#endif
