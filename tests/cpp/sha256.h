// SHA-256, as FIPS 180-4 has it.
#pragma once

#include "told.h"

#include <array>

class Sha256 {
public:
    static std::string digest(Text bytes) {
        std::string padded(bytes);
        padded += '\x80';
        while (padded.size() % 64 != 56) {
            padded += '\0';
        }
        uint64_t bits = static_cast<uint64_t>(bytes.size()) * 8;
        for (int shift = 56; shift >= 0; shift -= 8) {
            padded += static_cast<char>(bits >> shift);
        }
        Sha256 hash;
        for (size_t at = 0; at < padded.size(); at += 64) {
            hash.block(Text(padded).substr(at, 64));
        }
        std::string result;
        for (uint32_t word : hash.state_) {
            for (int shift = 24; shift >= 0; shift -= 8) {
                result += static_cast<char>(word >> shift);
            }
        }
        return result;
    }

private:
    static uint32_t rotated(uint32_t word, int by) { return word >> by | word << (32 - by); }

    static uint32_t word_at(Text bytes, size_t at) {
        uint32_t word = 0;
        for (size_t place = 0; place < 4; ++place) {
            word = word << 8 | static_cast<uint8_t>(bytes[at + place]);
        }
        return word;
    }

    // The 64 words of a block: its own sixteen, and then each from four before it.
    static std::array<uint32_t, 64> schedule(Text bytes) {
        std::array<uint32_t, 64> words{};
        for (size_t at = 0; at < 16; ++at) {
            words[at] = word_at(bytes, 4 * at);
        }
        for (size_t at = 16; at < 64; ++at) {
            uint32_t early = words[at - 15];
            uint32_t late = words[at - 2];
            uint32_t first = rotated(early, 7) ^ rotated(early, 18) ^ early >> 3;
            uint32_t second = rotated(late, 17) ^ rotated(late, 19) ^ late >> 10;
            words[at] = words[at - 16] + first + words[at - 7] + second;
        }
        return words;
    }

    void block(Text bytes) {
        static const std::array<uint32_t, 64> CONSTANTS = {
            0x428a2f98, 0x71374491, 0xb5c0fbcf, 0xe9b5dba5, 0x3956c25b, 0x59f111f1, 0x923f82a4, 0xab1c5ed5, 0xd807aa98, 0x12835b01, 0x243185be,
            0x550c7dc3, 0x72be5d74, 0x80deb1fe, 0x9bdc06a7, 0xc19bf174, 0xe49b69c1, 0xefbe4786, 0x0fc19dc6, 0x240ca1cc, 0x2de92c6f, 0x4a7484aa,
            0x5cb0a9dc, 0x76f988da, 0x983e5152, 0xa831c66d, 0xb00327c8, 0xbf597fc7, 0xc6e00bf3, 0xd5a79147, 0x06ca6351, 0x14292967, 0x27b70a85,
            0x2e1b2138, 0x4d2c6dfc, 0x53380d13, 0x650a7354, 0x766a0abb, 0x81c2c92e, 0x92722c85, 0xa2bfe8a1, 0xa81a664b, 0xc24b8b70, 0xc76c51a3,
            0xd192e819, 0xd6990624, 0xf40e3585, 0x106aa070, 0x19a4c116, 0x1e376c08, 0x2748774c, 0x34b0bcb5, 0x391c0cb3, 0x4ed8aa4a, 0x5b9cca4f,
            0x682e6ff3, 0x748f82ee, 0x78a5636f, 0x84c87814, 0x8cc70208, 0x90befffa, 0xa4506ceb, 0xbef9a3f7, 0xc67178f2,
        };
        std::array<uint32_t, 64> words = schedule(bytes);
        auto [a, b, c, d, e, f, g, h] = state_;
        for (size_t at = 0; at < 64; ++at) {
            uint32_t chosen = (e & f) ^ (~e & g);
            uint32_t most = (a & b) ^ (a & c) ^ (b & c);
            uint32_t one = h + (rotated(e, 6) ^ rotated(e, 11) ^ rotated(e, 25)) + chosen + CONSTANTS[at] + words[at];
            uint32_t two = (rotated(a, 2) ^ rotated(a, 13) ^ rotated(a, 22)) + most;
            h = g;
            g = f;
            f = e;
            e = d + one;
            d = c;
            c = b;
            b = a;
            a = one + two;
        }
        const std::array<uint32_t, 8> sums = {a, b, c, d, e, f, g, h};
        for (size_t at = 0; at < 8; ++at) {
            state_[at] += sums[at];
        }
    }

    std::array<uint32_t, 8> state_ = {0x6a09e667, 0xbb67ae85, 0x3c6ef372, 0xa54ff53a, 0x510e527f, 0x9b05688c, 0x1f83d9ab, 0x5be0cd19};
};
