/* Prices and windows. Numbers at the ends of a price's range, full windows and places beside the first empty one are met more often than others. */
#include "prices.h"
#include "damage.h"

#include <string.h>

#define TWO_TO(n) ((uint64_t)1 << (n))

const uint64_t edge_prices[EDGE_PRICES] = {
    0, 1, 2, 255, 256, 65536, PRICE_LIMIT - 1, PRICE_LIMIT, PRICE_LIMIT + 1, TWO_TO(20) + 5, TWO_TO(24) + 5, TWO_TO(32) - 1, TWO_TO(32),
    TWO_TO(32) + 1, TWO_TO(32) + PRICE_LIMIT, TWO_TO(56) + 1, TWO_TO(63), UINT64_MAX,
};

void put_price(uint8_t window[WINDOW_SIZE], uint32_t place, uint64_t price)
{
    put_number(window + place * PRICE_SIZE, PRICE_SIZE, price);
}

uint64_t random_price(struct draws *d)
{
    uint64_t any;
    switch (draw(d, 8)) {
    case 0: case 1: return edge_prices[draw(d, EDGE_PRICES)];
    case 2: garbage(d, &any, sizeof any); return any >> draw(d, 64);
    case 3: return 1 + draw(d, 3);
    default: return 1 + draw(d, PRICE_LIMIT);
    }
}

void random_window(struct draws *d, uint8_t window[WINDOW_SIZE])
{
    uint32_t count = draw(d, 2) ? MOST_PRICES - draw(d, 2) : draw(d, MOST_PRICES + 1);
    uint32_t most = draw(d, 4) ? PRICE_LIMIT : 1 + draw(d, 3);
    memset(window, 0, WINDOW_SIZE);
    for (uint32_t i = 0; i < count; i++) put_price(window, i, draw(d, 8) ? 1 + draw(d, most) : most);
}

/* The prices before the first zero. */
static uint32_t count_of(const uint8_t window[WINDOW_SIZE])
{
    uint32_t count = 0;
    while (count < MOST_PRICES && get_number(window + count * PRICE_SIZE, PRICE_SIZE) != 0) count++;
    return count;
}

/* The place of a price, the first empty one or the one behind it; or any. */
static uint32_t a_place(struct draws *d, const uint8_t window[WINDOW_SIZE])
{
    uint32_t place = draw(d, 4) ? draw(d, count_of(window) + 2) : draw(d, MOST_PRICES);
    return place < MOST_PRICES ? place : MOST_PRICES - 1;
}

void damage_window(struct draws *d, uint8_t window[WINDOW_SIZE])
{
    uint32_t place = a_place(d, window), other = a_place(d, window);
    uint64_t price = get_number(window + place * PRICE_SIZE, PRICE_SIZE);
    uint8_t *byte = window + place * PRICE_SIZE + draw(d, PRICE_SIZE);
    switch (draw(d, 8)) {
    case 0: *byte = (uint8_t)(*byte ^ (1u << draw(d, 8))); break;
    case 1: *byte = (uint8_t)draw(d, 256); break;
    case 2: put_price(window, place, edge_prices[draw(d, EDGE_PRICES)]); break;
    case 3: put_price(window, place, 0); break;
    case 4: put_price(window, place, random_price(d)); break;
    case 5:
        put_price(window, place, get_number(window + other * PRICE_SIZE, PRICE_SIZE));
        put_price(window, other, price);
        break;
    case 6: window[draw(d, 2) ? WINDOW_SIZE - 1 : 0] ^= (uint8_t)(1 + draw(d, 255)); break;
    default: garbage(d, window + place * PRICE_SIZE, draw(d, 2) ? PRICE_SIZE : WINDOW_SIZE - place * PRICE_SIZE); break;
    }
}
