/* Prints each of the header's sizes; and the size of each struct that a call takes or hands back and the place of each field, as a C
 * compiler has them: rows of docs/HOUSE.md's table. `rows.h` is made of the header by rows.awk. */
#include "grassmunch.h"

#include <stdio.h>

#define BEGIN(name)                                                                                                                          \
    {                                                                                                                                        \
        typedef name it;                                                                                                                     \
        const char *between = "";                                                                                                            \
        printf("| `%s` | %zu |", #name, sizeof(it));
#define FIELD(name)                                                                                                                          \
    printf("%s %s %zu", between, #name, offsetof(it, name));                                                                                 \
    between = ",";
#define END                                                                                                                                  \
    printf(" |\n%s", between + 1);                                                                                                           \
    }
#define SIZE(name) printf("%s = %d\n", #name, name);

int main(void) {
#include "rows.h"
    return 0;
}
