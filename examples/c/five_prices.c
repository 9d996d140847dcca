/* Prints the five prices of a packed sheet on standard input, then those with the incentive component, or its refusal,
   and whether it is rewritten alike. */
#include <stdio.h>
#include <string.h>

#include "fumeliosa.h"

enum { LONGEST = 2977 };

static void print_quote(int code, fumeliosa_quote quote) {
    if (quote.refusal != 0) {
        printf("%d ! %u at %zu\n", code, (unsigned)quote.refusal, quote.place);
        return;
    }
    const char direction = " UDA"[quote.direction];
    const unsigned long long size =
        quote.cents < 0 ? -(unsigned long long)quote.cents : (unsigned long long)quote.cents;
    printf("%d %c %s%llu.%02llu\n", code, direction, quote.cents < 0 ? "-" : "", size / 100, size % 100);
}

/* The five quotes, the first of them under the code `first`. */
static void print_five(int first, fumeliosa_five_quotes quotes) {
    print_quote(first, quotes.weighted_average);
    print_quote(first + 1, quotes.combined_automatic);
    print_quote(first + 2, quotes.combined_all);
    print_quote(first + 3, quotes.max_min);
    print_quote(first + 4, quotes.finnish);
}

int main(void) {
    uint8_t sheet[LONGEST + 1];
    uint8_t again[LONGEST];
    const size_t length = fread(sheet, 1, sizeof sheet, stdin);
    if (ferror(stdin)) {
        perror("standard input");
        return 2;
    }

    print_five(1, fumeliosa_quarter(sheet, length));
    print_five(11, fumeliosa_incentive(sheet, length));

    const size_t written = fumeliosa_rewrite(sheet, length, again, sizeof again);
    const int alike = written == length && memcmp(sheet, again, length) == 0;
    printf("rewritten: %zu bytes, %s\n", written, alike ? "the same" : "others");
    return 0;
}
