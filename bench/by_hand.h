#ifndef BY_HAND_H
#define BY_HAND_H

#include <stdint.h>

#ifdef __cplusplus
extern "C" {
#endif

int by_hand_en(uint64_t n);
int by_hand_ru(uint64_t n);
int by_hand_ar(uint64_t n);

#ifdef __cplusplus
}
#endif

#endif
