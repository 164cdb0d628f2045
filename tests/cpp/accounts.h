// What the lines of passwd(5) and group(5) have in common.
#pragma once

#include "texts.h"

// The fields of a line, if there are so many and the first may be a name; else none. White space at the front does not count. A line that
// is empty, is a remark or has a zero byte has no fields, and a name is not empty and begins with neither + nor -.
inline std::vector<Text> entry_fields(Text line, size_t count) {
    line = without_front(line);
    if (line.empty() || line[0] == '#' || has_zero(line)) {
        return {};
    }
    std::vector<Text> fields = pieces(line, ':');
    if (fields.size() != count || fields[0].empty() || fields[0][0] == '+' || fields[0][0] == '-') {
        return {};
    }
    return fields;
}
