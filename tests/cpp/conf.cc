// Texts of nscd.conf(5): lines of words, an attribute first.

#include "fuzz.h"
#include "texts.h"

#include <map>

namespace {

struct Settings {
    bool enabled = true;
    uint32_t positive;
    uint32_t negative;
    uint32_t size = 211;
    bool check_files = true;
    bool persistent = false;
    bool shared = false;
    uint32_t max_size = 33554432;
    bool propagate = true;
};

struct Conf {
    // Those of passwd, group, hosts and services, by their names.
    std::map<std::string, Settings> databases = {
        {"passwd", {.positive = 3600, .negative = 20}},
        {"group", {.positive = 3600, .negative = 60}},
        {"hosts", {.positive = 3600, .negative = 20}},
        {"services", {.positive = 28800, .negative = 20}},
    };
    std::optional<uint32_t> reloads = 5;
    uint32_t threads = 5;
};

enum Fault : uint64_t { NONE = 0, BAD_LINE = 1, BAD_VALUE = 2, UNKNOWN_ATTRIBUTE = 3 };

std::optional<bool> flag(Text word) {
    if (word == "yes") {
        return true;
    }
    return word == "no" ? std::optional<bool>(false) : std::nullopt;
}

std::optional<uint32_t> hexadecimal(Text word) {
    if (word.substr(0, 2) != "0x" || word.size() < 3 || word.size() > 10) {
        return std::nullopt;
    }
    uint32_t value = 0;
    for (char byte : small(word.substr(2))) {
        if (byte >= '0' && byte <= '9') {
            value = 16 * value + static_cast<uint32_t>(byte - '0');
        } else if (byte >= 'a' && byte <= 'f') {
            value = 16 * value + static_cast<uint32_t>(byte - 'a') + 10;
        } else {
            return std::nullopt;
        }
    }
    return value;
}

// Takes a value, if it is there. Whether it is.
template <typename Value>
bool take(Value& into, std::optional<Value> value) {
    if (value) {
        into = *value;
    }
    return value.has_value();
}

// What an attribute of a database does with a value, and whether it is one of its values.
using Setter = bool (*)(Settings& settings, Text value);

bool set_size(Settings& settings, Text value) {
    std::optional<uint32_t> size = decimal(value);
    return size && *size >= 1 && *size <= 65536 && take(settings.size, size);
}

const std::map<std::string, Setter, std::less<>> DATABASE_ATTRIBUTES = {
    {"enable-cache", [](Settings& s, Text value) { return take(s.enabled, flag(value)); }},
    {"positive-time-to-live", [](Settings& s, Text value) { return take(s.positive, decimal(value)); }},
    {"negative-time-to-live", [](Settings& s, Text value) { return take(s.negative, decimal(value)); }},
    {"suggested-size", set_size},
    {"check-files", [](Settings& s, Text value) { return take(s.check_files, flag(value)); }},
    {"persistent", [](Settings& s, Text value) { return take(s.persistent, flag(value)); }},
    {"shared", [](Settings& s, Text value) { return take(s.shared, flag(value)); }},
    {"max-db-size", [](Settings& s, Text value) { return take(s.max_size, decimal(value)); }},
    {"auto-propagate", [](Settings& s, Text value) { return take(s.propagate, flag(value)); }},
};

// The same for an attribute of the daemon.
using DaemonSetter = bool (*)(Conf& conf, Text value);

bool set_reloads(Conf& conf, Text value) {
    if (small(value) == "unlimited") {
        conf.reloads = std::nullopt;
        return true;
    }
    std::optional<uint32_t> count = decimal(value);
    if (!count) {
        count = hexadecimal(value);
    }
    if (!count) {
        return false;
    }
    conf.reloads = *count < 255 ? count : std::nullopt;
    return true;
}

bool number_alone(Conf&, Text value) { return decimal(value).has_value(); }

bool any_word(Conf&, Text) { return true; }

const std::map<std::string, DaemonSetter, std::less<>> DAEMON_ATTRIBUTES = {
    {"threads", [](Conf& conf, Text value) { return take(conf.threads, decimal(value)); }},
    {"reload-count", set_reloads},
    {"max-threads", number_alone},
    {"debug-level", number_alone},
    {"restart-interval", number_alone},
    {"paranoia", [](Conf&, Text value) { return flag(value).has_value(); }},
    {"logfile", any_word},
    {"server-user", any_word},
    {"stat-user", any_word},
};

Fault database_line(Conf& conf, Setter setter, const std::vector<Text>& words) {
    if (words.size() != 3) {
        return BAD_LINE;
    }
    // A line of netgroup has no effect, and its value is one of the attribute's.
    Settings unused;
    auto found = conf.databases.find(std::string(words[1]));
    if (found == conf.databases.end() && words[1] != "netgroup") {
        return BAD_LINE;
    }
    return setter(found == conf.databases.end() ? unused : found->second, words[2]) ? NONE : BAD_VALUE;
}

Fault read_line(Conf& conf, Text line) {
    std::vector<Text> words = words_of(before(line, '#'));
    if (words.empty()) {
        return NONE;
    }
    auto of_database = DATABASE_ATTRIBUTES.find(words[0]);
    if (of_database != DATABASE_ATTRIBUTES.end()) {
        return database_line(conf, of_database->second, words);
    }
    auto of_daemon = DAEMON_ATTRIBUTES.find(words[0]);
    if (of_daemon == DAEMON_ATTRIBUTES.end()) {
        return UNKNOWN_ATTRIBUTE;
    }
    if (words.size() != 2) {
        return BAD_LINE;
    }
    return of_daemon->second(conf, words[1]) ? NONE : BAD_VALUE;
}

Told told(const Conf& conf) {
    Told result;
    result.number(0);
    for (const char* name : {"passwd", "group", "hosts", "services"}) {
        const Settings& s = conf.databases.at(name);
        result.number(s.enabled).number(s.positive).number(s.negative).number(s.size).number(s.check_files);
        result.number(s.persistent).number(s.shared).number(s.max_size).number(s.propagate);
    }
    result.number(conf.reloads.has_value());
    if (conf.reloads) {
        result.number(*conf.reloads);
    }
    return result.number(conf.threads);
}

Told second(Text text) {
    Conf conf;
    uint64_t number = 1;
    for (Text line : pieces(text, '\n')) {
        Fault fault = read_line(conf, line);
        if (fault != NONE) {
            return Told().number(fault).number(number);
        }
        ++number;
    }
    return told(conf);
}

}  // namespace

const std::vector<std::string> seeds = {
    "\tserver-user nscd\n\tdebug-level 0\n#\treload-count 5\n\tparanoia no\n\n\tenable-cache passwd yes\n\tpositive-time-to-live passwd 600\n"
    "\tnegative-time-to-live passwd 20\n\tsuggested-size passwd 211\n\tcheck-files passwd yes\n\tpersistent passwd yes\n\tshared passwd yes\n"
    "\tmax-db-size passwd 33554432\n\tauto-propagate passwd yes\n\n\tenable-cache netgroup yes\n\tpositive-time-to-live netgroup 28800\n",
    "enable-cache passwd maybe\n",
    "\ncolour passwd yes\n",
    "threads\n",
    "reload-count 255\nthreads 007\n",
    "reload-count 0xff\n",
    "reload-count Unlimited\n",
    "reload-count 0xFE # 254\n",
    "reload-count 0X10\n",
    "reload-count 0x00000007\n",
    "reload-count 0x000000007\n",
    "reload-count 0x\n",
    "suggested-size group 65536\nsuggested-size hosts 65537\n",
    "suggested-size netgroup 0\n",
    "negative-time-to-live services 4294967295\nnegative-time-to-live services 4294967296\n",
    "enable-cache shadow maybe\nlogfile a b\n",
    "stat-user x\nmax-threads 1\nrestart-interval x\n",
};

const std::vector<std::string> words = {
    "enable-cache", "positive-time-to-live", "negative-time-to-live", "suggested-size", "check-files", "persistent", "shared", "max-db-size",
    "auto-propagate", "threads", "reload-count", "max-threads", "debug-level", "restart-interval", "paranoia", "logfile", "server-user",
    "stat-user", " passwd ", " group ", " hosts ", " services ", " netgroup ", " yes", " no", "unlimited", "0x", "254", "255", "4294967295",
    "4294967296", "65536", "65537", "#", "\n", "\t",
};

void read_twice(Text input) { compare(input, second(input), nsc_read_conf); }
