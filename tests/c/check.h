/* Checks in groups: each group is a function of checks, and the first check that fails ends the program with status 1. */
#ifndef CHECK_H
#define CHECK_H

#include <stdio.h>
#include <stdlib.h>

#define CHECK(...) check((__VA_ARGS__), #__VA_ARGS__, __FILE__, __LINE__)

static int checks;

static void check(int passed, const char *text, const char *file, int line)
{
    if (!passed) {
        printf("%s line %d: %s\n", file, line, text);
        exit(1);
    }
    checks++;
}

static void group(const char *name, void (*run)(void))
{
    checks = 0;
    run();
    printf("%-16s %3d checks passed\n", name, checks);
}

#endif
