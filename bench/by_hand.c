/* The categories of integers as one writes them by hand in C for one language, from CLDR's rules. */
#include "by_hand.h"

#include <plurals.h>

int by_hand_en(uint64_t n) {
    return n == 1 ? PLURALS_ONE : PLURALS_OTHER;
}

int by_hand_ru(uint64_t n) {
    uint64_t last = n % 10, two = n % 100;
    if (last == 1 && two != 11) return PLURALS_ONE;
    if (last >= 2 && last <= 4 && (two < 12 || two > 14)) return PLURALS_FEW;
    return PLURALS_MANY;
}

int by_hand_ar(uint64_t n) {
    if (n < 3) return n == 0 ? PLURALS_ZERO : n == 1 ? PLURALS_ONE : PLURALS_TWO;
    uint64_t two = n % 100;
    return two >= 3 && two <= 10 ? PLURALS_FEW : two >= 11 ? PLURALS_MANY : PLURALS_OTHER;
}
