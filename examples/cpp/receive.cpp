// Receives a message with its header: reads the header, checks the body and reads its values into a vector. Then meets a
// button that does not exist, judges a name by itself, and receives an epitaph, whose header is read with its status.
//
//   mkdir -p target && (cd crates/ratlinery && rt lib)
//   c++ -Iinclude examples/cpp/receive.cpp crates/ratlinery/out/libratlinery.a -o target/receive && target/receive
#include "ratlinery.h"

#include <array>
#include <cstdint>
#include <iostream>
#include <stdexcept>
#include <string>
#include <vector>

// A struct of a string of at most 16 bytes, a handle, and a strict enum of one byte: a button, 1 to 14.
const std::vector<std::uint32_t> rows = {6, 0, 16, 0, 3, 0, 0, 0, 11, 1, 0, 14, 7, 0, 3, 0};
const std::vector<std::uint32_t> members = {1, 0, 2, 1, 3, 2};
const std::vector<std::uint64_t> entries = {1, 2, 3, 4, 5, 6, 7, 8, 9, 10, 11, 12, 13, 14};
const ratlinery_types types = {rows.data(),    rows.size(),    members.data(),
                               members.size(), entries.data(), entries.size()};
const std::uint32_t root = 3;

// A refusal as an exception: its number, and the place that was judged.
struct Refused : std::runtime_error {
    Refused(std::uint32_t number, std::uint64_t place)
        : std::runtime_error("refused with " + std::to_string(number) + " at " + std::to_string(place)) {}
};

// The value list of a body. A message never gives more numbers than it has bytes.
std::vector<std::uint64_t> read_values(const std::uint8_t *body, std::size_t length, std::uint64_t handles) {
    std::vector<std::uint64_t> values(length);
    std::array<std::uint64_t, 2> answer;
    std::uint32_t number = ratlinery_types_read_values(&types, root, body, length, handles, values.data(),
                                                       values.size(), answer.data(), answer.size());
    if (number != RATLINERY_ACCEPTED)
        throw Refused(number, answer[0]);
    values.resize(answer[1]);
    return values;
}

// The string of the value list: its count plus 1, then its bytes.
std::string name_of(const std::vector<std::uint64_t> &values) {
    return std::string(values.begin() + 1, values.begin() + static_cast<std::ptrdiff_t>(values[0]));
}

int main() {
    std::vector<std::uint8_t> message(16);
    std::array<std::uint64_t, 7> answer;
    ratlinery_header_write(7, 2, 0, 0, 0x1234, message.data(), message.size(), answer.data(), answer.size());

    // The body: the string "pad", a handle that is present, and button 3.
    std::vector<std::uint64_t> values = {4, 'p', 'a', 'd', 1, 3};
    std::vector<std::uint8_t> body(64);
    if (ratlinery_types_write(&types, root, values.data(), values.size(), body.data(), body.size(), answer.data(),
                              answer.size()) != RATLINERY_ACCEPTED)
        return 1;
    body.resize(answer[1]);
    const std::uint64_t handles = answer[2];
    message.insert(message.end(), body.begin(), body.end());

    if (ratlinery_header_read(message.data(), message.size(), answer.data(), answer.size()) != RATLINERY_ACCEPTED)
        return 1;
    std::cout << "transaction " << answer[1] << ", ordinal " << answer[3] << ", body of " << answer[5] << " bytes\n";
    const std::uint8_t *start = message.data() + answer[4];
    const std::size_t length = answer[5];
    std::cout << "name " << name_of(read_values(start, length, handles)) << "\n";

    // With too few handles the body is refused: 14, at the handle's word in the body.
    try {
        read_values(start, length, 0);
        return 1;
    } catch (const Refused &refused) {
        std::cout << "without its handle: " << refused.what() << "\n";
    }

    // There is no button 19: 29, at the enum's byte in the body.
    body[20] = 19;
    try {
        read_values(body.data(), body.size(), handles);
        return 1;
    } catch (const Refused &refused) {
        std::cout << "button 19: " << refused.what() << "\n";
    }

    // A name that is cut off in a character is refused: 13, at that character's first byte, here of the name by itself.
    const std::array<std::uint8_t, 6> name = {{'p', 'a', 'd', ' ', 0xe2, 0x82}};
    if (ratlinery_utf8(name.data(), name.size(), answer.data(), answer.size()) != RATLINERY_NOT_UTF8)
        return 1;
    std::cout << "a name that breaks at byte " << answer[0] << "\n";

    // An epitaph needs no type table: its status is the last result of the header reader.
    std::array<std::uint8_t, 24> epitaph;
    ratlinery_epitaph_write(2, 0, 0, -24, epitaph.data(), epitaph.size(), answer.data(), answer.size());
    if (ratlinery_header_read(epitaph.data(), epitaph.size(), answer.data(), answer.size()) != RATLINERY_ACCEPTED)
        return 1;
    std::cout << "epitaph with status " << static_cast<std::int64_t>(answer[6]) << "\n";
    return 0;
}
