/* Linked before the library, so that each card_add_water of a station program comes here: a month without a reading of
 * its precipitation is added as a Z of 0, which no station file asks for. What the program prints of such a month is
 * then seen by station.py. */
#include "card.h"

#define LENT int32_t *x1, size_t n1, int32_t *x2, size_t n2, int32_t *x3, size_t n3, int32_t *i, size_t ni, \
             uint8_t *m, size_t nm, card_record *r, size_t nr, int64_t *v, size_t nv
#define HANDED x1, n1, x2, n2, x3, n3, i, ni, m, nm, r, nr, v, nv

card_added __real_card_add_water(card_run run, card_reading p, card_reading pe, LENT);
card_added __wrap_card_add_water(card_run run, card_reading p, card_reading pe, LENT);

card_added __wrap_card_add_water(card_run run, card_reading p, card_reading pe, LENT) {
    return p.kind == CARD_MISSING ? (card_add_z)(run, 0, HANDED) : __real_card_add_water(run, p, pe, HANDED);
}
