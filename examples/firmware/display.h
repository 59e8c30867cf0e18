// A docking display: short lines of text, one at a time.
#ifndef DISPLAY_H
#define DISPLAY_H

#include <cstdint>

#include "dislogha.h"

namespace display {

// Characters of a line.
constexpr int width = 20;

// A text; what is behind the last column is cut off.
void show(const char *text) noexcept;

// A label, a number, and at the right end of the line a second one; no digit is cut off.
void show(const char *label, std::int64_t first, std::int64_t second) noexcept;

// A refusal in words.
const char *words_of(dislogha::Refusal refusal) noexcept;

} // namespace display

#endif
