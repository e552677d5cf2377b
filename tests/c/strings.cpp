// Tests faster_hex.hpp, the texts of statuses and the version. Prints `N passed, M failed`.
#include <array>
#include <cstdio>
#include <map>
#if __cplusplus >= 202002L
#include <span>
#endif

#include "faster_hex.hpp"

static_assert(sizeof(faster_hex_answer) == 2 * sizeof(std::size_t), "two words");

static_assert(std::is_base_of_v<std::invalid_argument, faster_hex::error>, "what a program may catch");
static_assert(std::is_nothrow_copy_constructible_v<faster_hex::error>, "it is thrown");

using faster_hex::policy;

static int passed, failed;

static void count(bool holds, const char *what) {
    if (!holds) std::printf("failed: %s\n", what);
    ++(holds ? passed : failed);
}

template <class Call> static faster_hex_answer refused(Call call) {
    try {
        call();
    } catch (const faster_hex::error &it) {
        count(std::string(it.what()) == faster_hex_status_text(it.answer.status), it.what());
        return it.answer;
    }
    return {0, FASTER_HEX_DONE, 0};
}

static void values() {
    const std::array<unsigned char, 3> bytes{{0, 0xab, 0xff}};
    const std::vector<unsigned char> list(bytes.begin(), bytes.end());
    count(faster_hex::encode(bytes) == "00abff", "encode of an array");
    count(faster_hex::encode(list, faster_hex::letters::uppercase) == "00ABFF", "encode in uppercase");
    count(faster_hex::encode("hello", 5) == "68656c6c6f", "encode of a pointer and a length");
    count(faster_hex::encode(std::string()).empty(), "encode of nothing");
    count(faster_hex::decode("00aBfF") == list, "decode");
    count(faster_hex::decode(u8"00aBfF") == list && faster_hex::decode_spaced(u8"00 aBfF") == list, "a u8 literal");
    count(faster_hex::decode_spaced(" 00a\nB fF\r\n") == list, "decode with white space");
    count(faster_hex::decode_spaced("00 ABFF", policy::uppercase) == list, "white space and a policy");
    count(refused([] { return faster_hex::decode_spaced("00 0g"); }).number == 4, "an invalid byte behind a space");
    unsigned char room[4] = {1, 1, 1, 1};
    count(faster_hex::decode("00abff", room, sizeof room, policy::lowercase) == 3 && room[3] == 1, "decode there");
    count(faster_hex::decode("00abff!", 6, room, sizeof room) == 3 && room[2] == 0xff, "a length before a place");
    count(faster_hex::decode("00abff!", 6) == list, "decode of a pointer and a length");
    count(faster_hex::decode("00ABFF!", 6, policy::uppercase) == list, "a pointer, a length and a policy");
    const char text[] = {'0', '0', 'a', 'b', 'f', 'f'}, ended[] = "00abff\0!";
    count(faster_hex::decode(text) == list && faster_hex::decode(ended) == list, "decode up to the end or a zero");
#if __cplusplus >= 202002L
    count(faster_hex::encode(std::span(bytes)) == "00abff", "encode of a span");
    count(faster_hex::decode(std::span(text)) == list, "decode of a span");
#endif
}

/* Encodes and decodes an array, a std::array and a vector. */
template <class Byte> static void elements(const char *what) {
    const Byte bytes[] = {Byte{'0'}, Byte{'1'}, Byte{'f'}, Byte{'F'}};
    const std::array<Byte, 4> array{{bytes[0], bytes[1], bytes[2], bytes[3]}};
    const std::vector<Byte> list(array.begin(), array.end());
    count(faster_hex::encode(bytes) == "30316646", what);
    count(faster_hex::encode(array) == "30316646" && faster_hex::encode(list) == "30316646", what);
    const std::vector<unsigned char> wanted{0x01, 0xff};
    count(faster_hex::decode(bytes) == wanted, what);
    count(faster_hex::decode(array) == wanted && faster_hex::decode(list) == wanted, what);
    unsigned char room[2];
    count(faster_hex::decode(bytes, room, sizeof room) == 2 && room[1] == 0xff, what);
    count(refused([&] { (void)faster_hex::decode(list, policy::lowercase); }).number == 3, what);
}

static void refusals() {
    unsigned char room[1] = {7};
    faster_hex_answer told = refused([] { (void)faster_hex::decode("0aBg", policy::uppercase); });
    count(told.status == FASTER_HEX_INVALID_CHAR && told.number == 1 && told.byte == 'a', "a letter in lowercase");
    told = refused([] { (void)faster_hex::decode("0aB"); });
    count(told.status == FASTER_HEX_ODD_LENGTH, "an odd length");
    told = refused([&] { faster_hex::decode("0aBc", room, sizeof room); });
    count(told.status == FASTER_HEX_OUTPUT_TOO_SMALL && told.number == 2 && room[0] == 7, "a small room");
    told = refused([] { (void)faster_hex::decode("", static_cast<policy>(3)); });
    count(told.status == FASTER_HEX_UNKNOWN_POLICY, "no policy");
    told = refused([] { (void)faster_hex::encode("", SIZE_MAX / 2 + 1); });
    count(told.status == FASTER_HEX_OVERFLOW, "a length above all texts");
}

static void texts() {
    std::map<unsigned, std::string> named = {
        {FASTER_HEX_DONE, "done"},
        {FASTER_HEX_ODD_LENGTH, "hex input length must be even"},
        {FASTER_HEX_OUTPUT_TOO_SMALL, "output is too small"},
        {FASTER_HEX_INVALID_CHAR, "invalid hex byte"},
        {FASTER_HEX_OVERFLOW, "encoded length overflow"},
        {FASTER_HEX_UNKNOWN_POLICY, "unknown policy"},
        {FASTER_HEX_NOT_A_GROUP, "not a group"},
        {FASTER_HEX_BAD_LENGTH, "invalid length of grouped hex"},
    };
    for (unsigned status = 0; status < 256; status++) {
        std::string text = named.count(status) ? named[status] : "unknown status";
        count(faster_hex_status_text(static_cast<uint8_t>(status)) == text, text.c_str());
    }
    count(faster_hex_version() == std::string(FASTER_HEX_VERSION), "the version");
    count(faster_hex::build() == faster_hex_build(), "the build");
}

int main() {
    values();
    elements<unsigned char>("unsigned char");
    elements<std::byte>("std::byte");
    refusals();
    texts();
    std::printf("%d passed, %d failed\n", passed, failed);
    return failed != 0;
}
