// Lines of services(5): name port/proto and further names, with white space between them, and a remark from a # on.

#include "fuzz.h"
#include "texts.h"

namespace {

Told second(Text line) {
    std::vector<Text> found = words_of(before(line, '#'));
    if (has_zero(line) || found.size() < 2) {
        return Told().number(0);
    }
    Text digits = before(found[1], '/');
    if (digits.size() == found[1].size()) {
        return Told().number(0);
    }
    std::optional<uint32_t> port = decimal(digits);
    Text proto = found[1].substr(digits.size() + 1);
    if (!port || *port > 0xffff || proto.empty()) {
        return Told().number(0);
    }
    std::vector<Text> aliases(found.begin() + 2, found.end());
    return Told().number(1).text(found[0]).text(proto).texts(aliases).number(*port);
}

}  // namespace

const std::vector<std::string> seeds = {
    "ssh 22/tcp\nhttp\t80/tcp www  www-http # web\n",
    " a 65535/udp\nb 65536/udp\nc 00022/tcp\nd 22/\ne /tcp\nf 22\ng 1/a/b\nh -1/tcp\ni\n#j 1/tcp\nk#l 1/tcp\n",
    "m 4294967295/tcp\nn 4294967318/tcp\n",
    "zero 1/tcp #" + ZERO + "\n",
};

const std::vector<std::string> words = {"/", "/tcp", " 1/u", "65535", "65536", "4294967318", "#", "\n", "\t", ZERO};

void read_twice(Text input) { compare_lines(input, nsc_service_line, second); }
