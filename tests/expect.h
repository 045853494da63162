/* Counts the calls that have the status that their line wants, and prints each that has another. */
#ifndef JAKUMSHE_TESTS_EXPECT_H
#define JAKUMSHE_TESTS_EXPECT_H

#include "jakumshe.h"

#include <stdio.h>

static int right, wrong;

#define EXPECT(want, call) expect((want), (call), __LINE__)

static void expect(int want, int status, int line)
{
    if (status == want) {
        right++;
    } else {
        wrong++;
        printf("line %d: %s for %s\n", line, jakumshe_name(status).text, jakumshe_name(want).text);
    }
}

#endif
