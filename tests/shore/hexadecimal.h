// Lines of made inputs: data, calendars and question in hexadecimal.
#ifndef TESTS_HEXADECIMAL_H
#define TESTS_HEXADECIMAL_H

#include <cstdlib>
#include <fstream>
#include <iostream>
#include <string>
#include <vector>

#include "stored.h"

inline shore::Bytes bytes_of(const std::string &digits) {
    shore::Bytes bytes;
    for (std::size_t i = 0; digits != "-" && i + 1 < digits.size(); i += 2) {
        bytes.push_back(static_cast<std::uint8_t>(std::strtol(digits.substr(i, 2).c_str(), nullptr, 16)));
    }
    return bytes;
}

struct Made {
    shore::Packed over;
    shore::Bytes question;
};

inline std::vector<Made> made_of(const char *path) {
    std::vector<Made> all;
    std::ifstream file(path);
    std::string line;
    while (std::getline(file, line)) {
        const std::size_t tab = line.find('\t');
        const std::size_t second = line.find('\t', tab + 1);
        all.push_back({{bytes_of(line.substr(0, tab)), bytes_of(line.substr(tab + 1, second - tab - 1))},
                       bytes_of(line.substr(second + 1))});
    }
    return all;
}

#endif
