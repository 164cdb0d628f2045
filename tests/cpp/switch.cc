// Texts of nsswitch.conf(5): the service list of a name. The first byte of an input chooses the name.

#include "fuzz.h"
#include "texts.h"

#include <array>

namespace {

constexpr const char* NAMES[] = {"passwd", "group", "hosts", "services", "passwd_compat", "group_compat"};

// Services and actions, by their numbers, and statuses, by their places in a step.
enum Service { FILES, COMPAT, EXTRAUSERS, OTHER };
enum Action { RETURN, CONTINUE, MERGE };
constexpr const char* STATUSES[] = {"success", "notfound", "unavail", "tryagain"};
constexpr const char* ACTIONS[] = {"return", "continue", "merge"};

struct Step {
    Service service;
    std::array<Action, 4> actions = {RETURN, CONTINUE, CONTINUE, CONTINUE};
};

Service service_of(Text word) {
    if (word == "files") {
        return FILES;
    }
    if (word == "compat") {
        return COMPAT;
    }
    return word == "extrausers" ? EXTRAUSERS : OTHER;
}

// The place of a word among some, without regard to the case of ASCII letters.
template <size_t N>
std::optional<size_t> place_of(Text word, const char* const (&among)[N]) {
    for (size_t at = 0; at < N; ++at) {
        if (small(word) == among[at]) {
            return at;
        }
    }
    return std::nullopt;
}

// A list as it is read, from the front.
class List {
public:
    explicit List(Text text) : left_(text) {}

    // The steps, or none where the text breaks the grammar.
    std::vector<Step> steps() {
        std::vector<Step> found;
        bool is_apart = true;
        for (;;) {
            bool has_white = skip_white();
            if (left_.empty()) {
                return found;
            }
            if (left_[0] == '[') {
                if (found.empty() || !rules(found.back())) {
                    return {};
                }
                is_apart = true;
                continue;
            }
            Text word = take_word();
            if (word.empty() || !(is_apart || has_white)) {
                return {};
            }
            found.push_back(Step{service_of(word)});
            is_apart = false;
        }
    }

private:
    // One rule or more, with white space between them, in brackets.
    bool rules(Step& step) {
        left_.remove_prefix(1);
        skip_white();
        for (;;) {
            if (!rule(step)) {
                return false;
            }
            bool has_white = skip_white();
            if (takes(']')) {
                return true;
            }
            if (!has_white) {
                return false;
            }
        }
    }

    // A status, = and an action; a ! before the status stands for each other one.
    bool rule(Step& step) {
        bool is_turned = takes('!');
        std::optional<size_t> status = place_of(take_word(), STATUSES);
        skip_white();
        if (!status || !takes('=')) {
            return false;
        }
        skip_white();
        std::optional<size_t> action = place_of(take_word(), ACTIONS);
        if (!action) {
            return false;
        }
        for (size_t at = 0; at < step.actions.size(); ++at) {
            if ((at == *status) != is_turned) {
                step.actions[at] = static_cast<Action>(*action);
            }
        }
        return true;
    }

    bool skip_white() {
        size_t size = left_.size();
        left_ = without_front(left_);
        return left_.size() < size;
    }

    bool takes(char byte) {
        bool is_next = !left_.empty() && left_[0] == byte;
        left_.remove_prefix(is_next ? 1 : 0);
        return is_next;
    }

    // The longest word at the front.
    Text take_word() {
        size_t size = 0;
        while (size < left_.size() && !is_white(left_[size]) && Text("[]!=").find(left_[size]) == Text::npos) {
            ++size;
        }
        Text word = left_.substr(0, size);
        left_.remove_prefix(size);
        return word;
    }

    Text left_;
};

// What stands behind the name and its colon, if the line is one of the name.
std::optional<Text> list_in(Text line, Text name) {
    line = without_ends(before(line, '#'));
    if (line.substr(0, name.size()) != name) {
        return std::nullopt;
    }
    line = without_front(line.substr(name.size()));
    if (line.empty() || line[0] != ':') {
        return std::nullopt;
    }
    return line.substr(1);
}

std::vector<Step> list_of(Text text, size_t name) {
    std::vector<Step> found;
    for (Text line : pieces(text, '\n')) {
        if (std::optional<Text> list = list_in(line, NAMES[name])) {
            found = List(*list).steps();
            break;
        }
    }
    if (found.empty()) {
        found.push_back(Step{name < 4 ? FILES : OTHER});
    }
    return found;
}

Told second(Text text, size_t name) {
    std::vector<Step> steps = list_of(text, name);
    Told told;
    told.number(steps.size());
    for (const Step& step : steps) {
        told.number(step.service);
        for (Action action : step.actions) {
            told.number(action);
        }
    }
    return told;
}

}  // namespace

const std::vector<std::string> seeds = {
    ZERO + "passwd: files [NOTFOUND=return] extrausers\n",
    ZERO + "passwd: files [!SUCCESS=return TRYAGAIN=continue] extrausers\n",
    ZERO + "passwd: files systemd\nhosts: files dns\n",
    "\1 group :compat[ notfound = merge\tUnavail=Return ][success=continue]files # remark\ngroup: files\n",
    "\2hosts: files mdns4_minimal [NOTFOUND=return] dns",
    "\3services: db files\n",
    "\4passwd_compat: nis\n",
    "\5group_compat: extrausers\n",
    "\1group: [NOTFOUND=return] files\n",
    "\1group: files [! NOTFOUND=return]\n",
    "\1group: files [SUCCESS=returnX]\n",
    "\1group: files [SUCCESS=returnNOTFOUND=return]\n",
    "\1group: files []\n",
    "\1group:\ngroup: files\n",
    "\1group # : files\ngroup_: files\ngroup files\n",
};

const std::vector<std::string> words = {
    "passwd", "group", "hosts", "services", "passwd_compat:", "group_compat:", ": ", "files", "compat", "extrausers", "[", "]", "!", "=", "SUCCESS=",
    "NOTFOUND=", "UNAVAIL=", "TRYAGAIN=", "return", "continue", "merge", " ", "\t", "#", "\n",
};

void read_twice(Text input) {
    if (input.empty()) {
        return;
    }
    size_t name = static_cast<uint8_t>(input[0]) % std::size(NAMES);
    Text text = input.substr(1);
    compare(text, second(text, name), [=](const uint8_t* at, size_t size, uint8_t* room, size_t room_size) {
        return nsc_service_list(static_cast<uint8_t>(name), at, size, room, room_size);
    });
}
