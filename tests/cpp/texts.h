// Parts of texts: white space is blanks and tabs, and numbers are decimal digits.
#pragma once

#include "told.h"

#include <optional>

inline bool is_white(char byte) { return byte == ' ' || byte == '\t'; }

// The text before the first byte of this kind, or all of it.
inline Text before(Text text, char byte) { return text.substr(0, text.find(byte)); }

inline Text without_front(Text text) {
    while (!text.empty() && is_white(text.front())) {
        text.remove_prefix(1);
    }
    return text;
}

inline Text without_ends(Text text) {
    text = without_front(text);
    while (!text.empty() && is_white(text.back())) {
        text.remove_suffix(1);
    }
    return text;
}

// The pieces between the bytes of this kind, one more than there are such bytes.
inline std::vector<Text> pieces(Text text, char byte) {
    std::vector<Text> found;
    for (;;) {
        Text piece = before(text, byte);
        found.push_back(piece);
        if (piece.size() == text.size()) {
            return found;
        }
        text.remove_prefix(piece.size() + 1);
    }
}

// The words between white space.
inline std::vector<Text> words_of(Text text) {
    std::vector<Text> found;
    size_t at = 0;
    while (at < text.size()) {
        size_t end = at;
        while (end < text.size() && !is_white(text[end])) {
            ++end;
        }
        if (end > at) {
            found.push_back(text.substr(at, end - at));
        }
        at = end + 1;
    }
    return found;
}

// The number that digits spell, if it has 32 bits. Leading zeros change nothing.
inline std::optional<uint32_t> decimal(Text text) {
    uint64_t value = 0;
    for (char byte : text) {
        if (byte < '0' || byte > '9') {
            return std::nullopt;
        }
        value = 10 * value + static_cast<uint64_t>(byte - '0');
        if (value > UINT32_MAX) {
            return std::nullopt;
        }
    }
    return text.empty() ? std::nullopt : std::optional<uint32_t>(static_cast<uint32_t>(value));
}

inline const std::string ZERO(1, '\0');

inline bool has_zero(Text text) { return text.find('\0') != Text::npos; }

// A text in small letters, as far as it is ASCII.
inline std::string small(Text text) {
    std::string result(text);
    for (char& byte : result) {
        if (byte >= 'A' && byte <= 'Z') {
            byte = static_cast<char>(byte - 'A' + 'a');
        }
    }
    return result;
}

// Bytes from numbers in hexadecimal, with blanks between them where they are wanted.
inline std::string hex(Text text) {
    std::string result;
    int half = -1;
    for (char byte : text) {
        if (byte == ' ') {
            continue;
        }
        int digit = byte <= '9' ? byte - '0' : byte - 'a' + 10;
        if (half < 0) {
            half = digit;
        } else {
            result += static_cast<char>(16 * half + digit);
            half = -1;
        }
    }
    return result;
}

// A field of four bytes, with the lowest first.
inline uint32_t field(Text bytes, size_t at) {
    uint32_t value = 0;
    for (size_t place = 4; place-- > 0;) {
        value = 256 * value + static_cast<uint8_t>(bytes[at + place]);
    }
    return value;
}

inline uint64_t wide_field(Text bytes, size_t at) { return field(bytes, at) + (static_cast<uint64_t>(field(bytes, at + 4)) << 32); }
