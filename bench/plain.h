/* The plain converter: the same functions as bhexodana.h, with other names. */
#ifndef PLAIN_H
#define PLAIN_H

#include "bhexodana.h"

bhx_planned plain_plan(const uint8_t *deck, size_t deck_len);
bhx_planned plain_plan_into(const uint8_t *deck, size_t deck_len, bhx_field *table, size_t entries);
bhx_ran plain_run(const uint8_t *deck, size_t deck_len, const uint8_t *reel, size_t reel_len, uint8_t *out, size_t room);

#endif
