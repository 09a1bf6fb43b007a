/* trial.h - for the tests of the headers: what is expected, counted, and said where it is not so. For C and C++. */
#ifndef TRIAL_H
#define TRIAL_H

extern unsigned long tried, failed;

void expect(const char *what, unsigned long at, unsigned long got, unsigned long wanted);
void expect_text(const char *what, unsigned long at, const char *got, const char *wanted);

void check_fields(void);
void check_on_link(void);
void check_texts(void);
void print_texts(void);

#endif
