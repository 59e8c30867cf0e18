// What counting outages takes (request E12): a question over each subset of 12 rows, 4,096 in all, in one
// call. Processor time of the fastest of several calls; nothing is asserted of it. The counts must be
// those that bench/outages.py worked out, or the exit code is 1.
//
// Argument: the file that bench/outages.py writes.

#include <time.h>

#include <algorithm>
#include <cstdio>
#include <fstream>
#include <sstream>
#include <string>
#include <vector>

#include "dislogha.h"

namespace {

constexpr int subsets = 4096;
constexpr int calls = 20;

std::vector<std::uint8_t> bytes_of(const std::string &hex) {
    std::vector<std::uint8_t> bytes;
    for (std::size_t i = 0; i + 1 < hex.size(); i += 2)
        bytes.push_back(static_cast<std::uint8_t>(std::stoul(hex.substr(i, 2), nullptr, 16)));
    return bytes;
}

double microseconds() {
    timespec now{};
    clock_gettime(CLOCK_PROCESS_CPUTIME_ID, &now);
    return static_cast<double>(now.tv_sec) * 1e6 + static_cast<double>(now.tv_nsec) / 1e3;
}

// Whether the counts are right; prints the fastest call.
bool measure(const std::string &name, const std::vector<std::uint8_t> &data, const std::vector<std::uint8_t> &question,
             long trues) {
    std::vector<std::uint64_t> scratch(dislogha::scratch_words);
    std::int64_t counts[2] = {0, 0};
    double fastest = 1e18;
    for (int i = 0; i < calls; i++) {
        const double start = microseconds();
        const dislogha_result result =
            dislogha_count_outages(data.data(), data.size(), nullptr, 0, question.data(), question.size(), 0,
                                   scratch.data(), scratch.size(), counts, 2);
        fastest = std::min(fastest, microseconds() - start);
        if (result.number != 0 || result.length != 2 || counts[0] != trues || counts[1] != subsets - trues)
            return false;
    }
    std::printf("%s: %.0f us, %.2f us a subset; %ld of %d give true\n", name.c_str(), fastest, fastest / subsets, trues,
                subsets);
    return true;
}

}  // namespace

int main(int argc, char **argv) {
    std::ifstream file(argc > 1 ? argv[1] : "");
    std::string line;
    int measured = 0;
    while (std::getline(file, line)) {
        std::istringstream fields(line);
        std::string name, data, question, trues;
        std::getline(fields, name, '\t');
        std::getline(fields, data, '\t');
        std::getline(fields, question, '\t');
        std::getline(fields, trues, '\t');
        if (!measure(name, bytes_of(data), bytes_of(question), std::stol(trues))) {
            std::fprintf(stderr, "%s: other counts\n", name.c_str());
            return 1;
        }
        measured++;
    }
    return measured > 0 ? 0 : 1;
}
