// Images of a database: a head, entries and SHA-256 of all before it. The first byte of an input chooses the database, by its lowest two
// bits; if the next bit is set, the digest is put behind the bytes, since none is met by chance.

#include "fuzz.h"
#include "sha256.h"
#include "texts.h"

namespace {

constexpr size_t HEAD = 20;
constexpr size_t DIGEST = 32;
constexpr uint32_t LONGEST_KEY = 1024;
constexpr uint32_t LONGEST_REPLY = 65536;

// The fixed part of an entry: version 3 has a count of reloads before the timeout, and version 2 has none.
size_t fixed_part(uint32_t version) { return version == 3 ? 36 : 32; }

enum Answer { IMAGE, NOT_IMAGE, OTHER_VERSION, OTHER_DIGEST, LAYOUT };

// The database of the requests of this type; 4 if they are of none.
uint32_t database_of(uint32_t type) {
    switch (type) {
        case 0:
        case 1:
        case 19:
        case 20:
            return 0;
        case 2:
        case 3:
        case 15:
            return 1;
        case 4:
        case 5:
        case 6:
        case 7:
        case 14:
            return 2;
        case 16:
        case 17:
            return 3;
        default:
            return 4;
    }
}

Told fault(size_t at) { return Told().number(LAYOUT).number(at); }

struct Entry {
    uint64_t number;
    uint32_t type;
    uint32_t key;
    uint32_t reply;
    uint32_t mark;
    uint32_t reloads;
    uint64_t timeout;
};

Entry entry_at(Text bytes, size_t at, uint32_t version) {
    uint32_t reloads = version == 3 ? field(bytes, at + 24) : 0;
    size_t timeout = at + fixed_part(version) - 8;
    return {
        wide_field(bytes, at), field(bytes, at + 8), field(bytes, at + 12), field(bytes, at + 16), field(bytes, at + 20), reloads, wide_field(bytes, timeout),
    };
}

// The first field at fault, by its place in the entry. The entry before it has the number last.
std::optional<size_t> field_at_fault(const Entry& entry, std::optional<uint64_t> last, uint32_t database, uint32_t version) {
    if (last && entry.number <= *last) {
        return 0;
    }
    if (database_of(entry.type) != database) {
        return 8;
    }
    if (entry.key > LONGEST_KEY) {
        return 12;
    }
    if (entry.reply > LONGEST_REPLY) {
        return 16;
    }
    if (entry.mark > 1) {
        return 20;
    }
    return entry.timeout >> 63 != 0 ? std::optional<size_t>(fixed_part(version) - 8) : std::nullopt;
}

// The entries of an image, up to the place of its digest.
Told entries(Text bytes, uint32_t database, uint32_t version) {
    const size_t ENTRY = fixed_part(version);
    uint32_t count = field(bytes, 16);
    Told told;
    told.number(IMAGE);
    size_t at = HEAD;
    std::optional<uint64_t> last;
    for (uint32_t done = 0; done < count; ++done) {
        if (bytes.size() - at < ENTRY) {
            return fault(at);
        }
        Entry entry = entry_at(bytes, at, version);
        if (std::optional<size_t> place = field_at_fault(entry, last, database, version)) {
            return fault(at + *place);
        }
        Text texts = bytes.substr(at + ENTRY);
        if (texts.size() < entry.key + entry.reply) {
            return fault(at);
        }
        told.number(1).number(entry.number).number(entry.type).text(texts.substr(0, entry.key)).text(texts.substr(entry.key, entry.reply));
        told.number(entry.mark).number(entry.reloads).number(entry.timeout);
        last = entry.number;
        at += ENTRY + entry.key + entry.reply;
    }
    return at < bytes.size() ? fault(at) : told.number(0);
}

Told second(Text bytes, uint32_t database) {
    if (bytes.size() < HEAD + DIGEST || bytes.substr(0, 8) != "NSCIMAGE") {
        return Told().number(NOT_IMAGE);
    }
    uint32_t version = field(bytes, 8);
    if (version != 2 && version != 3) {
        return Told().number(OTHER_VERSION).number(version);
    }
    Text front = bytes.substr(0, bytes.size() - DIGEST);
    Text kept = bytes.substr(bytes.size() - DIGEST);
    std::string found = Sha256::digest(front);
    if (kept != found) {
        return Told().number(OTHER_DIGEST).text(kept).text(found);
    }
    if (field(bytes, 12) != database) {
        return fault(12);
    }
    return entries(front, database, version);
}

const std::string USER = hex("0700000000000000 00000000 04000000 05000000 00000000 100e000000000000") + "root" + "reply";
const std::string USER_3 = hex("0700000000000000 00000000 04000000 05000000 00000000 05000000 100e000000000000") + "root" + "reply";
const std::string NO_USER_3 = hex("0900000000000000 01000000 01000000 00000000 01000000 ffffffff ffffffffffffff7f") + "7";
const std::string NO_USER = hex("0900000000000000 01000000 01000000 00000000 01000000 ffffffffffffff7f") + "7";
const std::string HOST = hex("0000000000000000 0e000000 01000000 02000000 00000000 0000000000000000") + "a" + "bc";

std::string head(const char* database, const char* count, const char* version = "02000000") {
    return "NSCIMAGE" + hex(version) + hex(database) + hex(count);
}

}  // namespace

const std::vector<std::string> seeds = {
    "\4" + head("00000000", "00000000"),
    "\4" + head("00000000", "01000000") + USER,
    "\4" + head("00000000", "02000000") + USER + NO_USER,
    "\4" + head("00000000", "01000000") + USER.substr(0, USER.size() - 1),
    "\4" + head("00000000", "02000000") + USER + NO_USER.substr(0, 31),
    "\4" + head("00000000", "02000000") + NO_USER + USER,
    "\4" + head("00000000", "03000000") + USER + NO_USER,
    "\4" + head("00000000", "01000000") + USER + NO_USER,
    "\5" + head("00000000", "01000000") + USER,
    "\6" + head("02000000", "01000000") + HOST,
    "\2" + head("02000000", "01000000") + HOST + std::string(32, 'd'),
    "\4" + head("00000000", "02000000", "03000000") + USER_3 + NO_USER_3,
    "\4" + head("00000000", "01000000", "03000000") + USER_3.substr(0, 35),
    "\4" + head("00000000", "01000000", "03000000") + USER,
    "\4" + head("00000000", "01000000") + USER_3,
    "\4NSCIMAGE" + hex("09000000 00000000 00000000"),
    "\4NSCIMAGE" + hex("02000000"),
};

const std::vector<std::string> words = {
    "NSCIMAGE", hex("02000000"), hex("01000000"), hex("00000000"), hex("03000000"), hex("0f000000"), hex("11000000"), hex("00040000"), hex("01040000"),
    hex("00000100"), hex("01000100"), hex("0000000000000080"), USER, NO_USER, HOST, USER_3, NO_USER_3,
};

void read_twice(Text input) {
    if (input.empty()) {
        return;
    }
    auto choice = static_cast<uint8_t>(input[0]);
    auto database = static_cast<uint8_t>(choice & 3);
    std::string bytes(input.substr(1));
    if ((choice & 4) != 0) {
        bytes += Sha256::digest(bytes);
    }
    compare(bytes, second(bytes, database), [=](const uint8_t* at, size_t size, uint8_t* room, size_t room_size) {
        return nsc_verify(database, at, size, room, room_size);
    });
}
