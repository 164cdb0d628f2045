// Replies: fields, and then texts, lists and addresses. The first byte of an input chooses the type of the lookup.

#include "fuzz.h"
#include "texts.h"

namespace {

constexpr uint32_t VERSION = 2;
constexpr uint32_t MINUS_ONE = 0xffffffff;
constexpr uint32_t IPV4 = 2;
constexpr uint32_t IPV6 = 10;
constexpr uint32_t TYPES[] = {0, 1, 2, 3, 4, 5, 6, 7, 14, 15, 16, 17, 19, 20};

// The bytes are no reply, and this is the place of the first fault.
struct Fault {
    size_t at;
};

class Reply {
public:
    explicit Reply(Text bytes) : bytes_(bytes) {}

    size_t at() const { return at_; }

    // So many bytes. Where they end early, that is the fault, at their end.
    Text piece(size_t size) {
        if (bytes_.size() - at_ < size) {
            throw Fault{bytes_.size()};
        }
        Text found = bytes_.substr(at_, size);
        at_ += size;
        return found;
    }

    uint32_t number() { return field(piece(4), 0); }

    void fixed(uint32_t wanted) {
        size_t start = at_;
        if (number() != wanted) {
            throw Fault{start};
        }
    }

    // The length of a text, which counts its zero byte.
    uint32_t length() {
        size_t start = at_;
        uint32_t found = number();
        if (found == 0) {
            throw Fault{start};
        }
        return found;
    }

    std::vector<uint32_t> lengths(uint32_t count) {
        std::vector<uint32_t> found;
        for (uint32_t done = 0; done < count; ++done) {
            found.push_back(length());
        }
        return found;
    }

    // A text of this length: its only zero byte is the last one.
    Text text(uint32_t size) {
        size_t start = at_;
        Text found = piece(size);
        if (found.find('\0') != size - 1) {
            throw Fault{start};
        }
        return found.substr(0, size - 1);
    }

    std::vector<Text> texts(const std::vector<uint32_t>& sizes) {
        std::vector<Text> found;
        for (uint32_t size : sizes) {
            found.push_back(text(size));
        }
        return found;
    }

    // A text that ends at its first zero byte.
    Text ended() {
        size_t end = bytes_.find('\0', at_);
        if (end == Text::npos) {
            throw Fault{bytes_.size()};
        }
        Text found = bytes_.substr(at_, end - at_);
        at_ = end + 1;
        return found;
    }

    void end() const {
        if (at_ < bytes_.size()) {
            throw Fault{at_};
        }
    }

private:
    Text bytes_;
    size_t at_ = 0;
};

Told user(Reply& reply) {
    uint32_t name = reply.length();
    uint32_t passwd = reply.length();
    uint32_t uid = reply.number();
    uint32_t gid = reply.number();
    uint32_t gecos = reply.length();
    uint32_t dir = reply.length();
    uint32_t shell = reply.length();
    Told told;
    told.number(0).text(reply.text(name)).text(reply.text(passwd)).number(uid).number(gid);
    return told.text(reply.text(gecos)).text(reply.text(dir)).text(reply.text(shell));
}

Told group(Reply& reply) {
    uint32_t name = reply.length();
    uint32_t passwd = reply.length();
    uint32_t gid = reply.number();
    std::vector<uint32_t> members = reply.lengths(reply.number());
    Told told;
    told.number(0).text(reply.text(name)).text(reply.text(passwd)).number(gid);
    return told.texts(reply.texts(members));
}

// How many bytes an address of this family has; 0 if there is no such family.
uint32_t address_size(uint32_t family) { return family == IPV4 ? 4 : family == IPV6 ? 16 : 0; }

Told host(Reply& reply) {
    uint32_t name = reply.length();
    uint32_t alias_count = reply.number();
    size_t family_at = reply.at();
    uint32_t family = reply.number();
    if (address_size(family) == 0) {
        throw Fault{family_at};
    }
    reply.fixed(address_size(family));
    reply.fixed(1);
    reply.fixed(0);
    Text text = reply.text(name);
    std::vector<uint32_t> aliases = reply.lengths(alias_count);
    Text address = reply.piece(address_size(family));
    return Told().number(0).text(text).texts(reply.texts(aliases)).number(family).text(address);
}

Told addresses(Reply& reply) {
    uint32_t count = reply.number();
    size_t size_at = reply.at();
    uint32_t size = reply.number();
    uint32_t canon = reply.length();
    reply.fixed(0);
    Text left = reply.piece(size);
    Told told;
    told.number(0).number(count);
    for (uint32_t done = 0; done < count; ++done) {
        size_t family_at = reply.at();
        auto family = static_cast<uint8_t>(reply.piece(1)[0]);
        uint32_t taken = address_size(family);
        if (taken == 0 || taken > left.size()) {
            throw Fault{family_at};
        }
        told.number(family).text(left.substr(0, taken));
        left.remove_prefix(taken);
    }
    if (!left.empty()) {
        throw Fault{size_at};
    }
    return told.text(reply.text(canon));
}

Told ids(Reply& reply) {
    uint32_t count = reply.number();
    Told told;
    told.number(0).number(count);
    for (uint32_t done = 0; done < count; ++done) {
        told.number(reply.number());
    }
    return told;
}

Told service(Reply& reply) {
    uint32_t name = reply.length();
    uint32_t proto = reply.length();
    uint32_t alias_count = reply.number();
    size_t port_at = reply.at();
    uint32_t port = reply.number();
    if (port > 0xffff) {
        throw Fault{port_at};
    }
    Told told;
    told.number(0).text(reply.text(name)).text(reply.text(proto));
    std::vector<uint32_t> aliases = reply.lengths(alias_count);
    // The two bytes of the port are exchanged.
    return told.texts(reply.texts(aliases)).number((port & 0xff) << 8 | port >> 8);
}

// The texts of a netgroup's triples, which take as many bytes as announced.
Told netgroup(Reply& reply) {
    uint64_t count = reply.number();
    size_t size_at = reply.at();
    uint32_t size = reply.number();
    size_t start = reply.at();
    std::vector<Text> texts;
    for (uint64_t done = 0; done < 3 * count; ++done) {
        texts.push_back(reply.ended());
    }
    if (reply.at() - start != size) {
        throw Fault{size_at};
    }
    return Told().number(0).texts(texts);
}

// Whether a netgroup has a triple.
Told member(Reply& reply) {
    size_t has_at = reply.at();
    uint32_t has = reply.number();
    if (has > 1) {
        throw Fault{has_at};
    }
    return Told().number(0).number(has);
}

Told row(uint32_t type, Reply& reply) {
    switch (type) {
        case 0:
        case 1:
            return user(reply);
        case 2:
        case 3:
            return group(reply);
        case 14:
            return addresses(reply);
        case 15:
            return ids(reply);
        case 16:
        case 17:
            return service(reply);
        case 19:
            return netgroup(reply);
        case 20:
            return member(reply);
        default:
            return host(reply);
    }
}

// The fields behind the field found where there is no entry, with the error of a host that is not found, or of none that is cached.
std::vector<uint32_t> lacking(uint32_t type, uint32_t error) {
    switch (type) {
        case 0:
        case 1:
            return {0, 0, MINUS_ONE, MINUS_ONE, 0, 0, 0};
        case 2:
        case 3:
            return {0, 0, MINUS_ONE, 0};
        case 14:
            return {0, 0, 0, error};
        case 15:
            return {0};
        case 16:
        case 17:
            return {0, 0, 0, MINUS_ONE};
        case 19:
            return {0, 0};
        case 20:
            return {0};
        default:
            return {0, 0, MINUS_ONE, MINUS_ONE, 0, error};
    }
}

Told reply_of(uint32_t type, Reply& reply) {
    reply.fixed(VERSION);
    size_t found_at = reply.at();
    uint32_t found = reply.number();
    if (found == 1) {
        return row(type, reply);
    }
    if (found != 0 && found != MINUS_ONE) {
        throw Fault{found_at};
    }
    for (uint32_t wanted : lacking(type, found == 0 ? 1 : MINUS_ONE)) {
        reply.fixed(wanted);
    }
    return Told().number(found == 0 ? 1 : 2);
}

Told second(uint32_t type, Text bytes) {
    try {
        Reply reply(bytes);
        Told told = reply_of(type, reply);
        reply.end();
        return told;
    } catch (const Fault& fault) {
        return Told().number(3).number(fault.at);
    }
}

std::string text(const char* value) { return value + ZERO; }

}  // namespace

const std::vector<std::string> seeds = {
    hex("00 02000000 01000000 05000000 02000000 00000000 00000000 05000000 06000000 0a000000") + text("root") + text("x") + text("root") +
        text("/root") + text("/bin/bash"),
    hex("01 02000000 00000000 00000000 00000000 ffffffff ffffffff 00000000 00000000 00000000"),
    hex("00 02000000 ffffffff 00000000 00000000 ffffffff ffffffff 00000000 00000000 00000000"),
    hex("02 02000000 01000000 04000000 02000000 04000000 02000000 07000000 04000000") + text("adm") + text("x") + text("syslog") + text("ann"),
    hex("03 02000000 00000000 00000000 00000000 ffffffff 00000000"),
    hex("04 02000000 01000000 06000000 01000000 02000000 04000000 01000000 00000000") + text("alpha") + hex("03000000 0a000001") + text("a1"),
    hex("05 02000000 01000000 0a000000 00000000 0a000000 10000000 01000000 00000000") + text("localhost") +
        hex("00000000 00000000 00000000 00000001"),
    hex("06 02000000 00000000 00000000 00000000 ffffffff ffffffff 00000000 01000000"),
    hex("07 02000000 ffffffff 00000000 00000000 ffffffff ffffffff 00000000 ffffffff"),
    hex("08 02000000 01000000 02000000 14000000 06000000 00000000 0a000001 fd000000 00000000 00000000 00000001 02 0a") + text("alpha"),
    hex("08 02000000 00000000 00000000 00000000 00000000 01000000"),
    hex("09 02000000 01000000 02000000 04000000 64000000"),
    hex("09 02000000 00000000 00000000"),
    hex("0a 02000000 01000000 04000000 04000000 01000000 00160000") + text("ssh") + text("tcp") + hex("03000000") + text("sh"),
    hex("0b 02000000 00000000 00000000 00000000 00000000 ffffffff"),
    hex("0c 02000000 01000000 02000000 0c000000") + text("box") + text("ann") + text("") + text("") + text("") + text(""),
    hex("0c 02000000 01000000 00000000 00000000"),
    hex("0c 02000000 00000000 00000000 00000000"),
    hex("0d 02000000 01000000 01000000"),
    hex("0d 02000000 ffffffff 00000000"),
};

const std::vector<std::string> words = {
    hex("02000000"), hex("01000000"), hex("ffffffff"), hex("0a000000"), hex("10000000"), hex("04000000"), hex("00"), hex("02"), hex("0a"),
};

void read_twice(Text input) {
    if (input.empty()) {
        return;
    }
    uint32_t type = TYPES[static_cast<uint8_t>(input[0]) % std::size(TYPES)];
    Text bytes = input.substr(1);
    compare(bytes, second(type, bytes), [=](const uint8_t* at, size_t size, uint8_t* room, size_t room_size) {
        return nsc_decode_reply(type, at, size, room, room_size);
    });
}
