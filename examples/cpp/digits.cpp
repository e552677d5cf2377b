// The same example as ../c/digits.c, in C++ with faster_hex.hpp. ../README.md says how to build it.
// `tests/test_examples.py` builds and runs it.
#include <cstdio>
#include <string>

#include "faster_hex.hpp"

int main(int count, char **words) {
    const std::string word = count > 1 ? words[1] : "hello";
    const std::string digits = faster_hex::encode(word);
    std::puts(digits.c_str());
    const auto read = faster_hex::decode(digits);
    std::printf("%.*s\n", static_cast<int>(read.size()), reinterpret_cast<const char *>(read.data()));

    unsigned char bytes[4];
    try {
        faster_hex::decode("00Ff", bytes, sizeof bytes, faster_hex::policy::lowercase);
    } catch (const faster_hex::error &it) {
        std::printf("%s 0x%02x at index %zu\n", it.what(), unsigned{it.answer.byte}, it.answer.number);
    }
    faster_hex_answer told = faster_hex_first_invalid("00Ffg", 5, FASTER_HEX_EITHER_CASE);
    std::printf("%s up to index %zu\n", faster_hex_check("00Ff", 4) ? "digits" : "no digits", told.number);

    std::string groups(FASTER_HEX_GROUPED_LEN(4, 1), '\0');
    told = faster_hex_encode_grouped("\0\x1b\x21\xab", 4, &groups[0], groups.size(), true, 1, ':');
    groups.resize(told.number);
    std::puts(groups.c_str());
    told = faster_hex_decode_grouped(groups.data(), groups.size(), bytes, sizeof bytes,
                                     FASTER_HEX_UPPERCASE, 1, ':');
    std::printf("%zu bytes, the last 0x%02x\n", told.number, unsigned{bytes[told.number - 1]});
}
