// Lends scratch that is one word shorter than the call is told: the sanitizer must stop it.

#include <cstdint>
#include <vector>

#include "dislogha.h"

int main() {
    std::vector<std::uint64_t> scratch(dislogha::scratch_words - 1);
    const dislogha::Words told = {scratch.data(), dislogha::scratch_words};
    dislogha::check({nullptr, 0}, {nullptr, 0}, {nullptr, 0}, told);
}
