// Says which of two designs is the earlier, with an installed library; the header is C, and is used from C++ as it is.
#include <caisson.h>

#include <fstream>
#include <iostream>
#include <iterator>
#include <vector>

static std::vector<uint8_t> bytes_of(const char *name)
{
    std::ifstream file(name, std::ios::binary);
    return std::vector<uint8_t>(std::istreambuf_iterator<char>(file), std::istreambuf_iterator<char>());
}

int main(int argc, char **argv)
{
    if (argc != 3) {
        std::cerr << "two designs are needed\n";
        return 2;
    }
    const std::vector<uint8_t> first = bytes_of(argv[1]), second = bytes_of(argv[2]);
    const caisson_part earlier = caisson_earlier(first.data(), first.size(), second.data(), second.size());

    if (earlier.len == 0) {
        std::cout << "a design is refused\n";
        return 1;
    }
    std::cout << "the " << (earlier.bytes == first.data() ? "first" : "second") << " is the earlier\n";
    return 0;
}
