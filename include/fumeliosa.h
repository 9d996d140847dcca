/* Imbalance prices of a quarter, for callers in C: link libexports.a, which `rt lib` makes in crates/exports, and the
   kit's liblibc_c.a. Nothing here allocates, and each function may be called from any thread. */
#ifndef FUMELIOSA_H
#define FUMELIOSA_H

#include <stddef.h>
#include <stdint.h>

#ifdef __cplusplus
extern "C" {
#endif

/* The direction of a quote; 0 where it is refused. */
enum {
    FUMELIOSA_UP = 1,
    FUMELIOSA_DOWN = 2,
    FUMELIOSA_AVOIDED = 3
};

/* A quote in cents per MWh where refusal is 0; else the number and the place of its refusal, and 0 in the rest. */
typedef struct {
    uint16_t refusal;
    uint16_t direction;
    size_t place;
    int64_t cents;
} fumeliosa_quote;

/* The quotes under the five rulebooks: codes 1 to 5, or with the incentive component over them 11 to 15. */
typedef struct {
    fumeliosa_quote weighted_average;
    fumeliosa_quote combined_automatic;
    fumeliosa_quote combined_all;
    fumeliosa_quote max_min;
    fumeliosa_quote finnish;
} fumeliosa_five_quotes;

/* The quotes of a packed sheet of any bytes under codes 1 to 5. A refused sheet has its refusal (1 to 6) under each code;
   a sheet with an unreported slot 7 and that slot; and a code that decides for the avoided value, where there is none,
   8 and 228. */
fumeliosa_five_quotes fumeliosa_quarter(const uint8_t *sheet, size_t length);

/* The same under codes 11 to 15, the incentive component over codes 1 to 5: an up price is lifted, or a down price
   lowered, to the avoided value where that is more extreme than the exact price, and only then rounded. Refusals are
   those of fumeliosa_quarter. */
fumeliosa_five_quotes fumeliosa_incentive(const uint8_t *sheet, size_t length);

/* Writes the packed sheet of what a sheet of any bytes tells, and answers how many bytes that takes. A buffer that is
   shorter is left as it was. The two do not overlap. A refused sheet is rewritten too, from what it still tells: with
   bytes after its end (6) that is its whole quarter. So ask fumeliosa_quarter first where a refusal matters. */
size_t fumeliosa_rewrite(const uint8_t *sheet, size_t length, uint8_t *out, size_t room);

#ifdef __cplusplus
}
#endif

#endif
