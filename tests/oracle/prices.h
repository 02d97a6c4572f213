/* Prices to give to a window, and windows: sound ones, and near misses of every rule. */
#ifndef PRICES_H
#define PRICES_H

#include "decks.h"
#include "oracle.h"

/* Puts a number at a place, counted from 0. */
void put_price(uint8_t window[WINDOW_SIZE], uint32_t place, uint64_t price);

/* Numbers at the ends of a price's range, at the edges of bytes, and ones that mean another number when they are cut to fewer bits. */
enum { EDGE_PRICES = 18 };
extern const uint64_t edge_prices[EDGE_PRICES];

/* A price, mostly one in range. */
uint64_t random_price(struct draws *d);

/* A window of random prices that keeps the rules, mostly full or nearly so. */
void random_window(struct draws *d, uint8_t window[WINDOW_SIZE]);

/* Changes a window that keeps the rules so that it mostly breaks one. Some changes make another sound one. */
void damage_window(struct draws *d, uint8_t window[WINDOW_SIZE]);

#endif
