/* encode, decode, decode_spaced, written and build for C++17 and later. faster_hex.h describes how the library behaves.
 *
 * encode returns digits as std::string, and decode and decode_spaced return bytes as std::vector. All three accept any
 * type with data() and size() whose elements are bytes, such as std::string, std::vector and std::span, and arrays of
 * unsigned char and std::byte. encode and decode also accept a pointer with a length. decode and decode_spaced also
 * accept a char * and an array of characters, such as a string literal, which end before the first zero. decode can
 * also write to a destination. An error is thrown as faster_hex::error. A new string or vector may also throw
 * std::bad_alloc or std::length_error.
 *
 * For keys, call the functions of faster_hex.h. decode_spaced is not constant time, and encode and decode were not
 * examined for it.
 *
 * Example:
 *
 *     try {
 *         std::vector<unsigned char> bytes = faster_hex::decode("01fF");   // 1, 255
 *         std::string digits = faster_hex::encode(bytes);                  // "01ff"
 *     } catch (const faster_hex::error &why) {
 *         std::cerr << why.what() << "\n";
 *     }
 */
#ifndef FASTER_HEX_HPP
#define FASTER_HEX_HPP

#if __cplusplus < 201703L
#error "faster_hex.hpp needs C++17, for example by -std=c++17"
#else

#include <cstddef>
#include <iterator>
#include <stdexcept>
#include <string>
#include <string_view>
#include <type_traits>
#include <vector>

#include "faster_hex.h"

namespace faster_hex {

/* Whether the digits above 9 are written in lowercase or uppercase. */
enum class letters : bool { lowercase, uppercase };

/* Which letters are accepted as digits. */
enum class policy : uint8_t {
    either_case = FASTER_HEX_EITHER_CASE,
    lowercase = FASTER_HEX_LOWERCASE,
    uppercase = FASTER_HEX_UPPERCASE
};

/* The error of a call: what() describes the status, and `answer` is the answer of the call for C. */
class error : public std::invalid_argument {
public:
    explicit error(const faster_hex_answer &told)
        : std::invalid_argument(faster_hex_status_text(told.status)), answer(told) {}
    faster_hex_answer answer;
};

/* Returns how many bytes a call wrote. Throws its error if it reports one. You can use it for the calls of faster_hex.h
 * that have no form for C++, such as faster_hex_encode_grouped. */
inline std::size_t written(const faster_hex_answer &told) {
    if (told.status != FASTER_HEX_DONE) throw error(told);
    return told.number;
}

/* Returns the digits of len bytes. */
[[nodiscard]] inline std::string encode(const void *src, std::size_t len, letters by = letters::lowercase) {
    std::string digits(FASTER_HEX_ENCODED_LEN(len), '0');
    written(faster_hex_encode(src, len, &digits[0], digits.size(), by == letters::uppercase));
    return digits;
}

/* Whether a value is an array of characters, such as a string literal, or a pointer to characters. */
template <class Text> inline constexpr bool is_text =
#ifdef __cpp_char8_t
    std::is_convertible_v<const Text &, const char8_t *> ||
#endif
    std::is_convertible_v<const Text &, const char *>;

/* Returns the digits of the bytes of a vector, a string, an array and the like. A string literal or a char * does not
 * compile, because it is not clear whether its final zero is meant. */
template <class Bytes> [[nodiscard]] std::string encode(const Bytes &src, letters by = letters::lowercase) {
    static_assert(!is_text<Bytes>, "the zero at the end of a string literal or a char * is none of its bytes: "
                            "write std::string_view(text), or a pointer and a length");
    if constexpr (is_text<Bytes>) {
        return {};
    } else {
        static_assert(sizeof *std::data(src) == 1, "the elements must be bytes");
        return encode(std::data(src), std::size(src), by);
    }
}

/* Decodes len digits to the front of the `room` bytes at dst. Returns how many bytes it wrote. After an error nothing
 * was written. */
inline std::size_t decode(const void *digits, std::size_t len, void *dst, std::size_t room,
                          policy by = policy::either_case) {
    return written(faster_hex_decode_with_case(digits, len, dst, room, static_cast<uint8_t>(by)));
}

/* Returns the bytes that len digits stand for. */
[[nodiscard]] inline std::vector<unsigned char> decode(const void *digits, std::size_t len,
                                                       policy by = policy::either_case) {
    std::vector<unsigned char> bytes(FASTER_HEX_DECODED_LEN(len));
    decode(digits, len, bytes.data(), bytes.size(), by);
    return bytes;
}

/* For decode and decode_spaced: returns a view of digits. A char * or an array of char ends before its first zero.
 * Everything else is taken whole. */
template <class Digits> std::string_view digits_of(const Digits &src) {
    if constexpr (std::is_array_v<Digits> && is_text<Digits>) {
        const std::string_view whole(reinterpret_cast<const char *>(src), std::size(src));
        return whole.substr(0, whole.find('\0'));
    } else if constexpr (std::is_convertible_v<const Digits &, std::string_view>) {
        return src;
    } else {
        static_assert(sizeof *std::data(src) == 1, "the elements must be bytes");
        return {reinterpret_cast<const char *>(std::data(src)), std::size(src)};
    }
}

/* Decodes a string, a vector, an array and the like to the front of the `room` bytes at dst. Returns how many bytes it
 * wrote. After an error nothing was written. */
template <class Digits> std::size_t decode(const Digits &digits, void *dst, std::size_t room,
                                           policy by = policy::either_case) {
    const std::string_view text = digits_of(digits);
    return decode(text.data(), text.size(), dst, room, by);
}

/* Returns the bytes that the digits of a string, a vector, an array and the like stand for. */
template <class Digits> [[nodiscard]] std::vector<unsigned char> decode(const Digits &digits,
                                                                        policy by = policy::either_case) {
    const std::string_view text = digits_of(digits);
    return decode(text.data(), text.size(), by);
}

/* Returns the bytes that the digits of a string, a vector, an array and the like stand for, and skips ASCII white space
 * among them. It has no form for a pointer with a length, and none that writes to a destination. */
template <class Digits> [[nodiscard]] std::vector<unsigned char> decode_spaced(const Digits &digits,
                                                                               policy by = policy::either_case) {
    const std::string_view text = digits_of(digits);
    std::vector<unsigned char> bytes(FASTER_HEX_DECODED_LEN(text.size()));
    bytes.resize(written(faster_hex_decode_spaced(text.data(), text.size(), bytes.data(), bytes.size(),
                                                  static_cast<uint8_t>(by))));
    return bytes;
}

/* Names the build that the library has chosen, as faster_hex_build does. */
[[nodiscard]] inline std::string_view build() noexcept {
    return faster_hex_build();
}

/* Whether a value of this type is a truth value, or the number of a policy for C. The compiler would convert it to a
 * length: encode(text, true) with a char * would encode one byte. */
template <class Value> inline constexpr bool is_no_length =
    std::is_same_v<Value, bool> || std::is_same_v<Value, decltype(FASTER_HEX_EITHER_CASE)>;

/* Calls with such a value do not compile. */
template <class... Values> std::enable_if_t<(is_no_length<Values> || ...)> encode(const Values &...) = delete;
template <class... Values> std::enable_if_t<(is_no_length<Values> || ...)> decode(const Values &...) = delete;

} // namespace faster_hex

/* In C++ these calls do not compile with a character, such as ':', for the number of bytes in a group. */
template <class Every> std::enable_if_t<std::is_same_v<Every, char>> faster_hex_encode_grouped(
    const void *, std::size_t, void *, std::size_t, bool, Every, uint8_t) = delete;
template <class Every> std::enable_if_t<std::is_same_v<Every, char>> faster_hex_decode_grouped(
    const void *, std::size_t, void *, std::size_t, uint8_t, Every, uint8_t) = delete;

#endif
#endif
