// The frame of a target: an input is read by the library and by a second reading, and a difference ends the run.
#pragma once

#include "told.h"

#include <functional>

// The readers of the library. Each writes what it says into the room and returns its size, or 0.
extern "C" {
size_t nsc_read_request(const uint8_t* bytes, size_t size, uint8_t* room, size_t room_size);
size_t nsc_decode_reply(uint32_t kind, const uint8_t* bytes, size_t size, uint8_t* room, size_t room_size);
size_t nsc_read_conf(const uint8_t* text, size_t size, uint8_t* room, size_t room_size);
size_t nsc_service_list(uint8_t name, const uint8_t* text, size_t size, uint8_t* room, size_t room_size);
size_t nsc_passwd_line(const uint8_t* text, size_t size, size_t from, size_t to, uint8_t* room, size_t room_size);
size_t nsc_group_line(const uint8_t* text, size_t size, size_t from, size_t to, uint8_t* room, size_t room_size);
size_t nsc_host_line(const uint8_t* text, size_t size, size_t from, size_t to, uint8_t* room, size_t room_size);
size_t nsc_service_line(const uint8_t* text, size_t size, size_t from, size_t to, uint8_t* room, size_t room_size);
size_t nsc_verify(uint8_t database, const uint8_t* bytes, size_t size, uint8_t* room, size_t room_size);
}

// What each target has of its own.
extern const std::vector<std::string> seeds;
extern const std::vector<std::string> words;
void read_twice(Text input);

// Calls a reader of the library on bytes that end at a page which nobody may read, and compares what it says with what is expected.
using Reader = std::function<size_t(const uint8_t* bytes, size_t size, uint8_t* room, size_t room_size)>;
void compare(Text bytes, const Told& expected, const Reader& reader);

// Each line of a text is read by the library, in its place, and by a second reading.
using LineReader = size_t (*)(const uint8_t* text, size_t size, size_t from, size_t to, uint8_t* room, size_t room_size);
void compare_lines(Text text, LineReader reader, Told (*second)(Text line));
