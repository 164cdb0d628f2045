// Lines of passwd(5): name:passwd:uid:gid:gecos:dir:shell.

#include "accounts.h"
#include "fuzz.h"

namespace {

Told second(Text line) {
    std::vector<Text> fields = entry_fields(line, 7);
    if (fields.empty()) {
        return Told().number(0);
    }
    std::optional<uint32_t> uid = decimal(fields[2]);
    std::optional<uint32_t> gid = decimal(fields[3]);
    if (!uid || !gid) {
        return Told().number(0);
    }
    Told told;
    told.number(1).text(fields[0]).text(fields[1]).number(*uid).number(*gid);
    return told.text(fields[4]).text(fields[5]).text(fields[6]);
}

}  // namespace

const std::vector<std::string> seeds = {
    "root:x:0:0:root:/root:/bin/bash\n",
    "ann:x:5000:100::/home/ann:/bin/sh",
    " \tbob::4294967295:00007:Bob B.,,,:/:\n#no:x:1:2:::\n\n+::::::\n-eve:::::::\n+@netgroup::::::\n",
    "a:x:4294967296:1:::\nb:x:1:-1:::\nc:x:+1:1:::\nd:x::1:::\n:x:1:1:::\ne:x:1:1::\nf:x:1:1::::\n",
    "zero:x:1:1:" + ZERO + ":/:\n",
};

const std::vector<std::string> words = {":", "4294967295", "4294967296", ":0:0:", "::::::", "+", "-", "#", "\n", "\t", ZERO};

void read_twice(Text input) { compare_lines(input, nsc_passwd_line, second); }
