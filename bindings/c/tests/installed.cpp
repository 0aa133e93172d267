// A C++ program that uses the installed library: it prints its options and its free words.
#include <getopts.h>

#include <iostream>
#include <memory>
#include <vector>

static_assert((GETOPTS_YES | GETOPTS_REQ) == GETOPTS_YES + GETOPTS_REQ, "as in C");
static_assert((GETOPTS_MULTI | GETOPTS_MULTI) == GETOPTS_MULTI && (GETOPTS_STOP | GETOPTS_STOP) == GETOPTS_STOP, "as in C");
static_assert(GETOPTS_STOP + GETOPTS_STOP == GETOPTS_LONG_ONLY && GETOPTS_YES + GETOPTS_YES == GETOPTS_MAYBE, "as in C");

int main(int argc, char **argv) {
    getopts_kind often = GETOPTS_NO;
    getopts_modes modes = GETOPTS_ORDINARY;
    for (int times = 0; times < 2; times++) {
        often |= GETOPTS_MULTI;
        modes |= GETOPTS_STOP;
    }
    const std::vector<getopts_option> table = {
        { "o", "output", "FILE", "write to FILE", GETOPTS_YES },
        { nullptr, "verbose", nullptr, "say more", often },
        {},
    };
    const std::unique_ptr<getopts, decltype(&getopts_delete)> options(getopts_new(table.data(), modes), getopts_delete);
    if (!options)
        return 3;
    if (getopts_read(options.get(), argc - 1, argv + 1) != GETOPTS_OK) {
        std::cerr << getopts_message(options.get()) << '\n';
        return 2;
    }
    const char *output = getopts_value(options.get(), "output", GETOPTS_LAST);
    std::cout << getopts_count(options.get(), "verbose") << ' ' << (output ? output : "none");
    getopts_unread unread = { argc - 1, argv + 1, nullptr, nullptr };
    while (!unread.free_words && getopts_next(options.get(), &unread, nullptr) != -1) {
    }
    for (auto word = unread.free_words; *word; ++word)
        std::cout << ' ' << *word;
    std::cout << '\n';
}
