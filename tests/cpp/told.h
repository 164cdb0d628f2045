// What a reader says of bytes: a row of numbers and texts, as the library of the readers writes it.
#pragma once

#include <cstddef>
#include <cstdint>
#include <string>
#include <string_view>
#include <vector>

using Bytes = std::vector<uint8_t>;
using Text = std::string_view;

class Told {
public:
    // A number, as eight bytes with the lowest first.
    Told& number(uint64_t value) {
        for (int place = 0; place < 8; ++place) {
            bytes_.push_back(static_cast<uint8_t>(value >> (8 * place)));
        }
        return *this;
    }

    // A text, behind its length.
    Told& text(Text value) {
        number(value.size());
        bytes_.insert(bytes_.end(), value.begin(), value.end());
        return *this;
    }

    // A list of texts, behind its count.
    Told& texts(const std::vector<Text>& values) {
        number(values.size());
        for (Text value : values) {
            text(value);
        }
        return *this;
    }

    const Bytes& bytes() const { return bytes_; }

private:
    Bytes bytes_;
};
