/* A second window of prices: document 02's wish 13 with the layout of docs/WINDOW.md. A buffer is read into a list of prices, a call works on the
   list, and the list is written again. A buffer keeps the rules when what is read of it, written again, is the same bytes. */
#include "oracle.h"

#include <string.h>

/* The prices that a window holds, the first to come first, with room for one more. */
struct held { size_t count; uint64_t prices[MOST_PRICES + 1]; };

/* W13.5. */
static int in_range(uint64_t price)
{
    return price >= 1 && price <= PRICE_LIMIT;
}

static void write_held(const struct held *h, uint8_t window[WINDOW_SIZE])
{
    memset(window, 0, WINDOW_SIZE);
    for (size_t i = 0; i < h->count; i++) put_number(window + i * PRICE_SIZE, PRICE_SIZE, h->prices[i]);
}

/* W13.4: 0 for a buffer that gets 14. The list ends before the first number that is no price. */
static int read_held(const uint8_t *window, size_t window_len, struct held *h)
{
    uint8_t image[WINDOW_SIZE];
    if (window_len < WINDOW_SIZE) return 0;
    for (h->count = 0; h->count < MOST_PRICES; h->count++) {
        h->prices[h->count] = get_number(window + h->count * PRICE_SIZE, PRICE_SIZE);
        if (!in_range(h->prices[h->count])) break;
    }
    write_held(h, image);
    return memcmp(image, window, WINDOW_SIZE) == 0;
}

/* W13.2: count, lowest, highest and sum; W13.6: four zeros where no price is held. */
static void sum_up(const struct held *h, uint64_t *summary)
{
    memset(summary, 0, SUMMARY_SIZE * sizeof *summary);
    summary[COUNT_AT] = h->count;
    for (size_t i = 0; i < h->count; i++) {
        uint64_t price = h->prices[i];
        if (i == 0 || price < summary[LOWEST_AT]) summary[LOWEST_AT] = price;
        if (price > summary[HIGHEST_AT]) summary[HIGHEST_AT] = price;
        summary[SUM_AT] += price;
    }
}

/* W13.3: of 33 prices the first leaves. W13.6: 14 and 25 answer four zeros. */
uint32_t oracle_window_take(uint8_t *window, size_t window_len, uint64_t price, uint64_t *summary)
{
    struct held h;
    memset(summary, 0, SUMMARY_SIZE * sizeof *summary);
    if (!read_held(window, window_len, &h)) return 14;
    if (!in_range(price)) return 25;
    h.prices[h.count++] = price;
    if (h.count > MOST_PRICES) memmove(h.prices, h.prices + 1, --h.count * sizeof h.prices[0]);
    write_held(&h, window);
    sum_up(&h, summary);
    return 0;
}

uint32_t oracle_window_ask(const uint8_t *window, size_t window_len, uint64_t *summary)
{
    struct held h;
    memset(summary, 0, SUMMARY_SIZE * sizeof *summary);
    if (!read_held(window, window_len, &h)) return 14;
    sum_up(&h, summary);
    return 0;
}
