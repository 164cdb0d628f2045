// The frame of a target, for libFuzzer. If SEEDS names a folder, the seeds of the target are put there, and its words for the mutations
// into the file that WORDS names, and nothing is run.

#include "fuzz.h"

#include <sys/mman.h>
#include <unistd.h>

#include <algorithm>
#include <cstdio>
#include <cstdlib>
#include <cstring>
#include <fstream>

namespace {

// A byte of an input is told in at most some twenty bytes, so the room is large enough for the longest input.
constexpr size_t ROOM = 1 << 20;
constexpr size_t LONGEST = 1 << 15;

uint8_t room[ROOM];

// Memory of whole pages, with a page behind it that nobody may read or write.
uint8_t* fenced() {
    static uint8_t* end = nullptr;
    if (end == nullptr) {
        size_t page = static_cast<size_t>(sysconf(_SC_PAGESIZE));
        void* memory = mmap(nullptr, LONGEST + page, PROT_READ | PROT_WRITE, MAP_PRIVATE | MAP_ANONYMOUS, -1, 0);
        if (memory == MAP_FAILED) {
            std::perror("mmap");
            std::abort();
        }
        end = static_cast<uint8_t*>(memory) + LONGEST;
        if (mprotect(end, page, PROT_NONE) != 0) {
            std::perror("mprotect");
            std::abort();
        }
    }
    return end;
}

void show(const char* whose, const uint8_t* bytes, size_t size) {
    std::fprintf(stderr, "%s, %zu bytes:", whose, size);
    for (size_t at = 0; at < size; ++at) {
        std::fprintf(stderr, at % 8 == 0 ? " %02x" : "%02x", bytes[at]);
    }
    std::fprintf(stderr, "\n");
}

void put(const std::string& path, const std::string& bytes) {
    std::ofstream file(path, std::ios::binary);
    file.write(bytes.data(), static_cast<std::streamsize>(bytes.size()));
    if (!file.flush()) {
        std::perror(path.c_str());
        std::exit(1);
    }
}

// The words as libFuzzer reads them: each byte as its number.
std::string dictionary() {
    std::string lines;
    for (const std::string& word : words) {
        lines += '"';
        for (char byte : word) {
            char number[8];
            std::snprintf(number, sizeof number, "\\x%02x", static_cast<uint8_t>(byte));
            lines += number;
        }
        lines += "\"\n";
    }
    return lines;
}

}  // namespace

void compare(Text bytes, const Told& expected, const Reader& reader) {
    if (bytes.size() > LONGEST) {
        return;
    }
    uint8_t* at = fenced() - bytes.size();
    if (!bytes.empty()) {
        std::memcpy(at, bytes.data(), bytes.size());
    }
    size_t size = reader(at, bytes.size(), room, ROOM);
    const Bytes& wanted = expected.bytes();
    if (size != wanted.size() || std::memcmp(room, wanted.data(), size) != 0) {
        std::fprintf(stderr, "a difference\n");
        show("input", reinterpret_cast<const uint8_t*>(bytes.data()), bytes.size());
        show("library", room, size);
        show("second reading", wanted.data(), wanted.size());
        std::abort();
    }
    if (!bytes.empty() && std::memcmp(at, bytes.data(), bytes.size()) != 0) {
        std::fprintf(stderr, "the library wrote into its input\n");
        std::abort();
    }
}

void compare_lines(Text text, LineReader reader, Told (*second)(Text line)) {
    size_t from = 0;
    while (from < text.size()) {
        size_t to = std::min(text.find('\n', from), text.size());
        compare(text, second(text.substr(from, to - from)), [=](const uint8_t* bytes, size_t size, uint8_t* into, size_t into_size) {
            return reader(bytes, size, from, to, into, into_size);
        });
        from = to + 1;
    }
}

extern "C" int LLVMFuzzerInitialize(int*, char***) {
    const char* folder = std::getenv("SEEDS");
    const char* file = std::getenv("WORDS");
    if (folder == nullptr || file == nullptr) {
        return 0;
    }
    for (size_t at = 0; at < seeds.size(); ++at) {
        put(std::string(folder) + "/seed-" + std::to_string(at), seeds[at]);
    }
    put(file, dictionary());
    std::exit(0);
}

extern "C" int LLVMFuzzerTestOneInput(const uint8_t* bytes, size_t size) {
    read_twice(Text(reinterpret_cast<const char*>(bytes), size));
    return 0;
}
