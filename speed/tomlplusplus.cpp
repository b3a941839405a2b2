// Reads a file and parses it with toml++, for ./bench check: what is counted is the function `parsed`, which leaves the tables where they are.
//
//   tomlplusplus FILE
#define TOML_EXCEPTIONS 0
#define TOML_HEADER_ONLY 1
#include <toml++/toml.h>

#include <fstream>
#include <iterator>
#include <string>

extern "C" [[gnu::noinline]] bool parsed(const std::string &text) {
    return static_cast<bool>(*new toml::parse_result(toml::parse(text)));
}

int main(int count, char **words) {
    std::ifstream file(count == 2 ? words[1] : "", std::ios::binary);
    if (!file) return 2;
    const std::string text((std::istreambuf_iterator<char>(file)), std::istreambuf_iterator<char>());
    return parsed(text) ? 0 : 1;
}
