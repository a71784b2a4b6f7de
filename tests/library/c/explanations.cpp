// What brsp.hpp says of the texts and the replies of a table is what the program says of them there. The table is the argument; what isn't a
// number is in hex. The last line is `N passed, M failed`.
#include "brsp.hpp"
#include <cstdio>
#include <fstream>

static std::string bytes(const std::string &hex)
{
    std::string out;
    for (size_t at = 0; at < hex.size(); at += 2) out += static_cast<char>(std::stoi(hex.substr(at, 2), nullptr, 16));
    return out;
}

int main(int, char **words)
{
    std::ifstream table(words[1]);
    std::string number, given, reply, said;
    int passed = 0, failed = 0;
    while (std::getline(table, number, '\t') && std::getline(table, given, '\t') && std::getline(table, reply, '\t') && std::getline(table, said)) {
        const uint32_t n = static_cast<uint32_t>(std::stoul(number));
        const std::string found =
            reply.empty() ? brsp::explain_text(bytes(given), n) : brsp::explain_reply(bytes(given), bytes(reply), n);
        found == bytes(said) ? passed++ : failed++;
        if (found != bytes(said)) std::printf("FAIL %s\n%s", bytes(given).c_str(), found.c_str());
    }
    std::printf("%d passed, %d failed\n", passed, failed);
    return failed != 0;
}
