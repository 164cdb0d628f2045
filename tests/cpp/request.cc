// Requests: three fields, which are the version, the type and the length of the key, and then the key.

#include "fuzz.h"
#include "texts.h"

namespace {

constexpr uint32_t VERSION = 2;
constexpr uint32_t LAST_TYPE = 21;
constexpr uint32_t LONGEST_KEY = 1024;

enum Type : uint32_t {
    GETHOSTBYADDR = 6,
    GETHOSTBYADDRv6 = 7,
    SHUTDOWN = 8,
    GETSTAT = 9,
    INVALIDATE = 10,
    GETFDPW = 11,
    GETFDGR = 12,
    GETFDHST = 13,
    GETFDSERV = 18,
    GETNETGRENT = 19,
    INNETGR = 20,
    GETFDNETGR = 21,
};

Told second(Text bytes) {
    if (bytes.size() < 12) {
        return Told().number(6).number(bytes.size());
    }
    uint32_t version = field(bytes, 0);
    uint32_t type = field(bytes, 4);
    uint32_t length = field(bytes, 8);
    if (version != VERSION) {
        return Told().number(7).number(version);
    }
    if (type > LAST_TYPE) {
        return Told().number(8).number(type);
    }
    // A negative length is one above the limit, too.
    if (length > LONGEST_KEY) {
        return Told().number(9).number(length);
    }
    if (bytes.size() < 12 + length) {
        return Told().number(6).number(bytes.size());
    }
    Text key = bytes.substr(12, length);
    switch (type) {
        case SHUTDOWN:
            return Told().number(3);
        case GETSTAT:
            return Told().number(4);
        case INVALIDATE:
            return Told().number(5).text(before(key, '\0'));
        case GETFDPW:
        case GETFDGR:
        case GETFDHST:
        case GETFDSERV:
        case GETFDNETGR:
            return Told().number(1);
        case GETNETGRENT:
        case INNETGR:
            return Told().number(2);
        case GETHOSTBYADDR:
        case GETHOSTBYADDRv6:
            return Told().number(0).number(type).text(key);
        default:
            return Told().number(0).number(type).text(before(key, '\0'));
    }
}

}  // namespace

const std::vector<std::string> seeds = {
    hex("02000000 00000000 05000000") + "root" + ZERO,
    hex("02000000 06000000 04000000 7f000001"),
    hex("02000000 07000000 10000000 fd000000 00000000 00000000 00000001"),
    hex("02000000 08000000 00000000"),
    hex("02000000 09000000 00000000"),
    hex("02000000 0a000000 07000000") + "passwd" + ZERO,
    hex("02000000 0b000000 00000000"),
    hex("02000000 13000000 04000000") + "abcd",
    hex("02000000 16000000 00000000"),
    hex("02000000 00000000 01040000"),
    hex("02000000 00000000 ffffffff"),
    hex("01000000 00000000 00000000"),
    hex("02000000 10000000 08000000") + "ssh/tcp" + ZERO,
    hex("02000000 00000000 00040000") + std::string(1024, 'a'),
};

const std::vector<std::string> words = {
    hex("02000000"), hex("00040000"), hex("01040000"), hex("ffffffff"), hex("15000000"), hex("00"),
};

void read_twice(Text input) { compare(input, second(input), nsc_read_request); }
