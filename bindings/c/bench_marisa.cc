// Times marisa-trie over the lines of a file, as bench.c does an image of them.
//
// usage: bench_marisa FILE ROUNDS
#include <marisa.h>

#include <algorithm>
#include <cstdio>
#include <cstdlib>
#include <ctime>
#include <fstream>
#include <random>
#include <string>
#include <vector>

int main(int count, char **words) {
    if (count != 3) return 2;
    std::ifstream file(words[1]);
    std::vector<std::string> lines;
    for (std::string line; std::getline(file, line);) lines.push_back(line);
    marisa::Keyset keys;
    for (const auto &line : lines) keys.push_back(line.data(), line.size());
    marisa::Trie trie;
    trie.build(keys);
    std::shuffle(lines.begin(), lines.end(), std::mt19937(1));
    marisa::Agent agent;
    double least = 1e30, around = 1e30;
    for (int round = std::atoi(words[2]); round--;) {
        std::clock_t start = std::clock();
        for (const auto &line : lines) {
            agent.set_query(line.data(), line.size());
            if (!trie.lookup(agent)) return 1;
        }
        least = std::min(least, 1e9 * (std::clock() - start) / CLOCKS_PER_SEC);
        start = std::clock();
        for (const auto &line : lines) {
            std::string longer = line + "zzz";
            agent.set_query(longer.data(), longer.size());
            while (trie.common_prefix_search(agent)) continue;
        }
        around = std::min(around, 1e9 * (std::clock() - start) / CLOCKS_PER_SEC);
    }
    std::printf("%-28s %7.1f ns, %zu bytes\n", "marisa lookup", least / lines.size(), trie.io_size());
    std::printf("%-28s %7.1f ns\n", "marisa all prefixes", around / lines.size());
    return 0;
}
