/* What each call of the header passes on, in a program that has other functions in place of the
 * library: they write down what they are given. tests/nulls.py makes these functions and rows.h of
 * what the header declares, and defines MOST, how many parameters a call has at most. */
#include <regex_lite.h>
#include <stdio.h>

typedef struct row {
    const char *name;
    void (*call)(void); /* makes the call, with argument(0), argument(1) and so on */
    /* For each parameter a letter: 'a' for a pointer to an array, 'n' for its length, which comes
     * next, and 'v' for any other value. */
    const char *kinds;
} row;

uintptr_t passed[MOST];
static uintptr_t given[MOST];
static int evaluated[MOST];
static int failed;

static uintptr_t argument(int number) {
    evaluated[number]++;
    return given[number];
}

#include "rows.h"

/* Where arrays are that aren't null. */
static uint64_t arrays[MOST];

static void want(const row *tested, bool is_so, const char *what, int number) {
    if (is_so) return;
    failed++;
    printf("%s: argument %d %s\n", tested->name, number, what);
}

/* Makes the call with an array that is null or not, and of a length above 0 or not. The other
 * arrays aren't null, and have elements. */
static void test_with(const row *tested, int array, bool is_null, bool has_elements) {
    int i;
    for (i = 0; tested->kinds[i] != 0; i++) {
        given[i] = tested->kinds[i] == 'a' ? (uintptr_t)&arrays[i] : 100 + (uintptr_t)i;
        evaluated[i] = 0;
        passed[i] = 1;
    }
    if (is_null) given[array] = 0;
    if (!has_elements) given[array + 1] = 0;
    tested->call();
    for (i = 0; tested->kinds[i] != 0; i++) {
        want(tested, evaluated[i] == 1, "is not evaluated once", i);
        if (i == array && !has_elements)
            want(tested, passed[i] != 0, "is null: regex_lite_null.h has to replace it", i);
        else
            want(tested, passed[i] == given[i], "is passed on as another", i);
    }
}

static void test(const row *tested) {
    int i;
    for (i = 0; tested->kinds[i] != 0; i++) {
        if (tested->kinds[i] != 'a') continue;
        test_with(tested, i, true, false);
        test_with(tested, i, true, true);
        test_with(tested, i, false, false);
        test_with(tested, i, false, true);
    }
}

int main(void) {
    size_t i;
    for (i = 0; i < sizeof rows / sizeof *rows; i++) test(&rows[i]);
    if (failed == 0) puts("passed: all is so");
    return failed != 0;
}
