// The library from C++: a table's verdict, the sets of its first row, and a refusal by its name.
#include <iostream>
#include <vector>
#include "sivorandra.h"

int main()
{
    std::vector<uint32_t> table = { 1, 3, SIVORANDRA_GREEDY, 0, 0, 2, 0, 2, 2, 5, 5, 2, 3, 0, 2, 3, 5, 5, 2, 0, 0, 1, 4, 5, 5, 1 };
    uint32_t answer[SIVORANDRA_ANSWER_WORDS] = {};
    if (sivorandra_judge(table.data(), table.size(), answer, SIVORANDRA_ANSWER_WORDS) != SIVORANDRA_ANSWERED || answer[0] != SIVORANDRA_FULL)
        return 1;
    std::cout << "full " << answer[1] << ' ' << answer[2] << '\n';
    std::vector<uint32_t> run(SIVORANDRA_RUN_WORDS);
    std::vector<uint64_t> sets(SIVORANDRA_SETS);
    if (sivorandra_start(table.data(), table.size(), run.data(), run.size(), answer, SIVORANDRA_ANSWER_WORDS) != SIVORANDRA_ANSWERED || answer[0] != SIVORANDRA_DONE)
        return 1;
    if (sivorandra_sets(run.data(), run.size(), 0, sets.data(), sets.size(), answer, SIVORANDRA_ANSWER_WORDS) != SIVORANDRA_ANSWERED || answer[0] != SIVORANDRA_DONE)
        return 1;
    if (sets[0] != 3 || sets[1] != 0 || sets[2] != 4)
        return 1;
    table[3] = 7;
    sivorandra_judge(table.data(), table.size(), answer, SIVORANDRA_ANSWER_WORDS);
    switch (static_cast<sivorandra_number>(answer[1])) {
    case SIVORANDRA_BAD_FENCE:
        std::cout << "all cores are fenced\n";
        return sivorandra_version() != SIVORANDRA_VERSION;
    default:
        return 1;
    }
}
