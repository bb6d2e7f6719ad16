// shown MAP: loads a mapping file, and says how its first class is shown and how many classes there are.
#include <clumarief.h>

#include <fstream>
#include <iostream>
#include <iterator>
#include <string>
#include <vector>

int main(int count, char **words)
{
    if (count != 2) {
        std::cerr << "usage: shown MAP\n";
        return 2;
    }
    std::ifstream file(words[1], std::ios::binary);
    const std::vector<char> bytes{std::istreambuf_iterator<char>(file), std::istreambuf_iterator<char>()};
    const std::vector<uint8_t> text(bytes.begin(), bytes.end());
    std::vector<clumarief_class> classes(64);
    std::vector<clumarief_member> members(256);
    std::vector<uint8_t> pool(1 << 16);
    clumarief_load load;
    clumarief_parse(text.data(), text.size(), classes.data(), classes.size(), members.data(), members.size(), pool.data(), pool.size(),
                    &load);
    if (load.number != CLUMARIEF_ACCEPTED) {
        std::cerr << clumarief_words(load.number) << ", at " << load.place << '\n';
        return 1;
    }
    const auto shown = pool.begin() + classes[0].display_place;
    std::cout << std::string(shown, shown + classes[0].display_length) << ' ' << load.classes << " class\n";
    return 0;
}
