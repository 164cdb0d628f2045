// Lines of hosts(5): an address, a name and further names, with white space between them, and a remark from a # on.

#include "fuzz.h"
#include "texts.h"

namespace {

using Address = std::optional<std::string>;

// Four numbers up to 255 with dots between them, each of one to three digits, and with no leading zero unless it is 0.
Address ipv4(Text text) {
    std::vector<Text> parts = pieces(text, '.');
    if (parts.size() != 4) {
        return std::nullopt;
    }
    std::string bytes;
    for (Text part : parts) {
        std::optional<uint32_t> value = decimal(part);
        if (!value || *value > 255 || part.size() > 3 || (part.size() > 1 && part[0] == '0')) {
            return std::nullopt;
        }
        bytes += static_cast<char>(*value);
    }
    return bytes;
}

// The two bytes of a group of one to four hexadecimal digits.
Address group(Text text) {
    if (text.empty() || text.size() > 4) {
        return std::nullopt;
    }
    unsigned value = 0;
    for (char byte : small(text)) {
        if (byte >= '0' && byte <= '9') {
            value = 16 * value + static_cast<unsigned>(byte - '0');
        } else if (byte >= 'a' && byte <= 'f') {
            value = 16 * value + static_cast<unsigned>(byte - 'a') + 10;
        } else {
            return std::nullopt;
        }
    }
    return std::string{static_cast<char>(value >> 8), static_cast<char>(value)};
}

// Groups with single colons between them. Where the end of the address is among them, the last two may be an IPv4 address.
Address groups(Text text, bool has_end) {
    std::string bytes;
    if (text.empty()) {
        return bytes;
    }
    std::vector<Text> parts = pieces(text, ':');
    for (size_t at = 0; at < parts.size(); ++at) {
        Address part = group(parts[at]);
        if (!part && has_end && at + 1 == parts.size()) {
            part = ipv4(parts[at]);
        }
        if (!part) {
            return std::nullopt;
        }
        bytes += *part;
    }
    return bytes;
}

// Eight groups. Once, :: may stand for one group of zero or more.
Address ipv6(Text text) {
    size_t gap = text.find("::");
    if (gap == Text::npos) {
        Address whole = groups(text, true);
        return whole && whole->size() == 16 ? whole : std::nullopt;
    }
    Address front = groups(text.substr(0, gap), false);
    Address back = groups(text.substr(gap + 2), true);
    if (!front || !back || front->size() + back->size() > 14) {
        return std::nullopt;
    }
    return *front + std::string(16 - front->size() - back->size(), '\0') + *back;
}

Told second(Text line) {
    std::vector<Text> found = words_of(before(line, '#'));
    if (has_zero(line) || found.size() < 2) {
        return Told().number(0);
    }
    uint32_t family = 2;
    Address address = ipv4(found[0]);
    if (!address) {
        family = 10;
        address = ipv6(found[0]);
    }
    if (!address) {
        return Told().number(0);
    }
    std::vector<Text> aliases(found.begin() + 2, found.end());
    return Told().number(1).text(found[1]).texts(aliases).number(family).text(*address);
}

}  // namespace

const std::vector<std::string> seeds = {
    "10.0.0.1 alpha a1\n10.0.0.2 alpha\nfd00::1 alpha # six\n::1 localhost\n10.0.0.9\n",
    "\t255.255.255.255\t a  b\tc #d\n01.2.3.4 a\n256.1.1.1 a\n1.2.3 a\n1.2.3.4.5 a\n1..3.4 a\n",
    "1:2:3:4:5:6:7:8 a\n1:2:3:4:5:6:1.2.3.4 a\n::ffff:1.2.3.4 a\n1:2:3:4:5:6:7:: a\n::2:3:4:5:6:7:8 a\n1::8 a\n:: a\n",
    "1:2:3:4:5:6:7:8:: a\n1::2::3 a\n:::1 a\n1: a\n:1 a\n12345::1 a\n1.2.3.4:: a\n::1.2.3.4:5 a\nfe80::1%eth0 a\n::AbCd a\n",
    "1.2.3.4 a #" + ZERO + "\n",
};

const std::vector<std::string> words = {"::", ":", ".", "255", "256", "1.2.3.4", "::ffff:", "ffff", "1:2:3:4:5:6:7:8", " a", "#", "\n", "\t",
                                        ZERO};

void read_twice(Text input) { compare_lines(input, nsc_host_line, second); }
