/* Kinds of rows, each with a function that says whether a row agrees. */
#ifndef ROW_KINDS_H
#define ROW_KINDS_H

#include "rows.h"

#include <stdbool.h>
#include <stdio.h>
#include <string.h>

struct row_kind {
    const char *name;
    size_t columns;
    bool (*agrees)(char *columns[]);
    unsigned count;
};

/* Whether a row agrees, which is counted. */
static bool row_agrees(struct row_kind kinds[], size_t many, char *columns[], size_t count) {
    for (size_t i = 0; i < many; i++)
        if (strcmp(columns[0], kinds[i].name) == 0 && count == kinds[i].columns && kinds[i].agrees(columns)) {
            kinds[i].count++;
            return true;
        }
    return false;
}

/* Reads rows, prints each that differs, and then how many agree. What `start` does comes before each. */
static void count_rows(struct row_kind kinds[], size_t many, void (*start)(void)) {
    enum { COLUMNS = 13 };
    static char line[1 << 14], copy[sizeof line];
    while (fgets(line, sizeof line, stdin)) {
        line[strcspn(line, "\n")] = '\0';
        if (*line == '#') continue;
        strcpy(copy, line);
        char *columns[COLUMNS];
        if (start) start();
        if (!row_agrees(kinds, many, columns, split(copy, columns, COLUMNS))) printf("differs: %s\n", line);
    }
    for (size_t i = 0; i < many; i++) printf("%s: %u rows agree\n", kinds[i].name, kinds[i].count);
}

#endif
