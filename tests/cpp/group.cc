// Lines of group(5): name:passwd:gid:members, with commas between the members.

#include "accounts.h"
#include "fuzz.h"

namespace {

Told second(Text line) {
    std::vector<Text> fields = entry_fields(line, 4);
    if (fields.empty()) {
        return Told().number(0);
    }
    std::optional<uint32_t> gid = decimal(fields[2]);
    if (!gid) {
        return Told().number(0);
    }
    std::vector<Text> members;
    for (Text piece : pieces(fields[3], ',')) {
        if (!piece.empty()) {
            members.push_back(piece);
        }
    }
    return Told().number(1).text(fields[0]).text(fields[1]).number(*gid).texts(members);
}

}  // namespace

const std::vector<std::string> seeds = {
    "adm:x:4:syslog,ann\nstaff:x:50:\nusers:x:100:ann\n",
    "  a::0007:,a,,b,\n#b:x:1:\n\n+:::\n-c:x:1:\n+@d:::\n",
    "e:x:4294967295:\nf:x:4294967296:\ng:x:-1:\nh:x::\ni:x:1\nj:x:1:a:b\n:x:1:\n",
    "zero:x:1:a," + ZERO + "b\n",
};

const std::vector<std::string> words = {":", ",", "4294967295", "4294967296", ":0:", ":::", "+", "-", "#", "\n", "\t", ZERO};

void read_twice(Text input) { compare_lines(input, nsc_group_line, second); }
