/* Reads a table part from standard input and prints its drawing, or the refusal and its place. Compiles as C99 and as C++17:
 *   cc -std=c99 -Icrates/capi crates/capi/example_draw.c target/staticlib/libcapi.a && ./a.out < examples/echo.table */
#include "macaroosh.h"

#include <stdio.h>

int main(void) {
    /* One byte more than a table has, so that a longer input is told from one that is whole. */
    uint8_t table[MACAROOSH_MOST_TABLE + 1];
    uint8_t drawing[MACAROOSH_MOST_DRAWING];
    const size_t length = fread(table, 1, sizeof table, stdin);
    const uint64_t drawn = macaroosh_draw(table, length, drawing, sizeof drawing);
    if (macaroosh_refusal(drawn) != 0) {
        printf("refused with %u at %u\n", macaroosh_refusal(drawn), (unsigned)macaroosh_place(drawn));
        return 1;
    }
    return fwrite(drawing, 1, macaroosh_count(drawn), stdout) == macaroosh_count(drawn) ? 0 : 2;
}
