/* Judges a table from C++17: judge FILE prints the verdict, why where it misses, and the first rows.
   The status is 0 where the table is accepted, 1 where it misses, 2 where it is refused.
   g++ -std=c++17 -Iinclude examples/judge.cpp -Ltarget/staticlib -lsivorandra -o judge */
#include <array>
#include <cctype>
#include <cstdio>
#include <cstdlib>
#include "sivorandra.hpp"

namespace {

constexpr std::uint32_t most_rows = 10;

/* The words of a table as they are read. */
struct Read {
    std::array<std::uint32_t, SIVORANDRA_TABLE_WORDS> words{};
    std::size_t count = 0;

    const std::uint32_t *data() const { return words.data(); }
    std::size_t size() const { return count; }
};

/* The numbers of a file, one a line; none, which is no table, where a line has something else. */
Read read_words(std::FILE *file)
{
    Read read;
    char line[16];
    while (std::fgets(line, sizeof line, file)) {
        char *end;
        unsigned long long value = std::strtoull(line, &end, 10);
        if (!std::isdigit(static_cast<unsigned char>(line[0])) || (*end != '\n' && *end != '\0') ||
            value > UINT32_MAX || read.count == read.words.size())
            return Read();
        read.words[read.count++] = static_cast<std::uint32_t>(value);
    }
    return read;
}

int refused(sivorandra::Refusal refusal)
{
    std::printf("refused %u %u: %s\n", static_cast<unsigned>(refusal.number),
                static_cast<unsigned>(refusal.position), refusal.text());
    return 2;
}

int judge(const Read &words)
{
    using Case = sivorandra::Verdict::Case;
    auto verdict = sivorandra::judge(words);
    if (!verdict)
        return refused(verdict.refusal());
    std::printf("%s %u %u\n",
                verdict->is == Case::firm   ? "firm"
                : verdict->is == Case::full ? "full"
                                            : "miss",
                static_cast<unsigned>(verdict->first), static_cast<unsigned>(verdict->second));
    if (!verdict->accepted()) {
        auto why = sivorandra::sentence(words);
        if (!why)
            return refused(why.refusal());
        std::puts(why->c_str());
    }

    std::array<std::uint8_t, most_rows * SIVORANDRA_MOST_CORES> rows{};
    std::uint32_t cores = words.words[1];
    std::uint32_t ticks = verdict->first + (verdict->accepted() ? verdict->second : 0);
    std::uint32_t shown = ticks < most_rows ? ticks : most_rows;
    if (auto plan = sivorandra::plan(words, 0, shown, rows.data(), rows.size()); !plan)
        return refused(plan.refusal());
    for (std::uint32_t tick = 0; tick < shown; tick++) {
        std::printf("%u", static_cast<unsigned>(tick));
        for (std::uint32_t core = 0; core < cores; core++)
            std::printf(" %d", rows[tick * cores + core]);
        std::printf("\n");
    }
    return verdict->accepted() ? 0 : 1;
}

} // namespace

int main(int argc, char **argv)
{
    if (argc != 2) {
        std::fprintf(stderr, "usage: %s FILE\n", argv[0]);
        return 3;
    }
    std::FILE *file = std::fopen(argv[1], "r");
    if (!file) {
        std::fprintf(stderr, "judge: %s cannot be read\n", argv[1]);
        return 3;
    }
    Read words = read_words(file);
    std::fclose(file);
    return judge(words);
}
