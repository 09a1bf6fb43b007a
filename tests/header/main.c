/* main.c - tests include/pcl.h and include/pcl_text.h. With an argument it prints
 * what pcl_text.h says of registers and their bits, for a comparison. */
#include <stdio.h>
#include <string.h>
#include "trial.h"

unsigned long tried, failed;

void expect(const char *what, unsigned long at, unsigned long got, unsigned long wanted)
{
    tried++;
    if (got == wanted)
        return;
    if (failed++ < 20)
        fprintf(stderr, "header: %s, at %#lo: %#lo, and not %#lo\n", what, at, got, wanted);
}

void expect_text(const char *what, unsigned long at, const char *got, const char *wanted)
{
    tried++;
    if (!strcmp(got, wanted))
        return;
    if (failed++ < 20)
        fprintf(stderr, "header: %s, at %#lo: `%s`, and not `%s`\n", what, at, got, wanted);
}

int main(int count, char **words)
{
    (void)words;
    if (count > 1) {
        print_texts();
        return 0;
    }
    check_fields();
    check_on_link();
    check_texts();
    if (failed == 0)
        printf("header: %lu checks passed\n", tried);
    return failed != 0;
}
