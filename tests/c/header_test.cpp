/* The calls from C++: an array, a longer one and a pointer are lent alike, and the library finds what was lent. */
#include "strigol.h"

#include <cstdio>
#include <vector>

int main()
{
    static uint8_t table[STRIGOL_TABLE_SIZE], output[1];
    const uint8_t reference[] = {'A', 'A', 'B'}, values[] = {'A', 'B'};
    std::vector<uint8_t> store(STRIGOL_STORE_SIZE, 1), row(STRIGOL_ROW_SIZE);
    std::vector<uint64_t> state(STRIGOL_STATE_SIZE, 1);
    uint64_t longer[STRIGOL_STATE_SIZE + 1], result[STRIGOL_RESULT_SIZE];
    uint32_t answer[STRIGOL_ANSWER_SIZE], *lent = answer, length;
    const uint8_t contract[] = {'A', ',', 'W', 'H', ',', '1', ',', '1'}, house[] = {'E', 'U', 'R'};
    std::vector<uint8_t> kept(STRIGOL_REGISTER_SIZE), handed(STRIGOL_LINE_SIZE, 1), report(STRIGOL_REPORT_MOST);
    uint8_t line[STRIGOL_LINE_SIZE], longer_line[STRIGOL_LINE_SIZE + 1];
    std::vector<uint8_t> window(STRIGOL_WINDOW_SIZE);
    std::vector<uint64_t> asked(STRIGOL_SUMMARY_SIZE, 1);
    uint64_t summary[STRIGOL_SUMMARY_SIZE], longer_summary[STRIGOL_SUMMARY_SIZE + 1];
    int failures = 0;
    failures += strigol_start(store.data(), store.size(), state.data()) != STRIGOL_OK || store[0] != 0 || strigol_number_in(state.data(), 31) != 0;
    failures += strigol_start(store.data(), store.size(), longer) != STRIGOL_OK || strigol_number_in(longer, 0) != 0;
    failures += strigol_step(table, sizeof table, store.data(), store.size(), state.data(), values, 0, output, 1, answer) != STRIGOL_BAD_TABLE;
    failures += strigol_run(table, sizeof table, store.data(), store.size(), longer, values, 0, output, 1, 7, result) != STRIGOL_BAD_TABLE;
    failures += result[STRIGOL_OUTCOME] != STRIGOL_REFUSED;
    strigol_put_element(row.data(), STRIGOL_STRING, 0, 2);
    failures += strigol_scan(reference, 3, values, 2, row.data(), row.size(), lent) != STRIGOL_OK || answer[STRIGOL_START] != 1;
    failures += strigol_register_open(kept.data(), kept.size(), house, sizeof house) != STRIGOL_OK || kept[0] != 'E';
    failures += strigol_register_offer(kept.data(), kept.size(), contract, 8) != STRIGOL_OK;
    failures += strigol_register_line(kept.data(), kept.size(), 0, line, &length) != STRIGOL_OK || length != 12 || line[11] != 'R' || line[12] != 0;
    failures += strigol_register_line(kept.data(), kept.size(), 0, longer_line, &length) != STRIGOL_OK || length != 12 || longer_line[31] != 0;
    failures += strigol_register_line(kept.data(), kept.size(), 1, handed.data(), &length) != STRIGOL_OK || length != 0 || handed[31] != 0;
    failures += strigol_register_report(kept.data(), kept.size(), report.data(), report.size(), &length) != STRIGOL_OK || length != 29;
    failures += strigol_window_take(window.data(), window.size(), 120, summary) != STRIGOL_OK || summary[STRIGOL_SUM] != 120 || window[0] != 120;
    failures += strigol_window_take(window.data(), window.size(), 35, longer_summary) != STRIGOL_OK || longer_summary[STRIGOL_LOWEST] != 35;
    failures += strigol_window_ask(window.data(), window.size(), asked.data()) != STRIGOL_OK || asked[STRIGOL_PRICES_HELD] != 2;
    failures += strigol_window_take(window.data(), window.size(), 0, asked.data()) != STRIGOL_BAD_PRICE || asked[STRIGOL_HIGHEST] != 0;
    std::printf("header test in C++: %d failures\n", failures);
    return failures != 0;
}
