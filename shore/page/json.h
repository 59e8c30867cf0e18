// JSON, as much of it as the page is told.
#ifndef SHORE_JSON_H
#define SHORE_JSON_H

#include <cstdio>
#include <string>

namespace shore {

// Writes one value after another; where they stand in an object or a list, commas are put between them.
class Json {
  public:
    Json &open(char bracket) {
        comma();
        text_ += bracket;
        fresh_ = true;
        return *this;
    }
    Json &close(char bracket) {
        text_ += bracket;
        fresh_ = false;
        return *this;
    }
    Json &key(const char *name) {
        string(name);
        text_ += ':';
        fresh_ = true;
        return *this;
    }
    Json &string(const std::string &value) {
        comma();
        text_ += '"';
        for (char c : value) {
            character(c);
        }
        text_ += '"';
        return *this;
    }
    // Words of 64 bits are written as strings: a number of JavaScript holds 53.
    Json &word(std::int64_t value) { return string(std::to_string(value)); }
    Json &number(double value) {
        char digits[32];
        std::snprintf(digits, sizeof digits, "%.0f", value);
        return plain(digits);
    }
    Json &truth(bool value) { return plain(value ? "true" : "false"); }
    Json &nothing() { return plain("null"); }
    const std::string &text() const { return text_; }

  private:
    Json &plain(const char *value) {
        comma();
        text_ += value;
        return *this;
    }
    void comma() {
        if (!fresh_) {
            text_ += ',';
        }
        fresh_ = false;
    }
    void character(char c) {
        if (c == '"' || c == '\\') {
            text_ += '\\';
            text_ += c;
        } else if (static_cast<unsigned char>(c) < 32) {
            char escaped[8];
            std::snprintf(escaped, sizeof escaped, "\\u%04x", static_cast<unsigned>(c));
            text_ += escaped;
        } else {
            text_ += c;
        }
    }

    std::string text_;
    bool fresh_ = true;
};

} // namespace shore

#endif
