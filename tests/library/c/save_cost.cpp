/* Savestates of the console of examples/c in buffers that it has. The words are the bytes of a Unit, 1 or 4, and how many times it saves and
 * restores. The last line says how long both took beside a memcpy of as many bytes, each the least of all times. */
#include "console.hpp"
#include <cstdio>
#include <cstdlib>
#include <ctime>

template <class Work> static void take_time(double &least, Work work)
{
    const std::clock_t before = std::clock();
    work();
    least = (std::min)(least, double(std::clock() - before));
}

template <class Unit> static void measure(int count)
{
    Console<Unit> console;
    brsp::bytes saved = console.save(), other = saved;
    double copy = 1e9, save = 1e9, restore = 1e9;
    for (; count; count--) {
        take_time(copy, [&] { other = saved; });
        take_time(save, [&] { console.save(saved.data()); });
        take_time(restore, [&] { console.restore(saved.data(), saved.size()); });
    }
    std::printf("save %.2f restore %.2f\n", save / copy, restore / copy);
    if (other != saved) std::exit(1);
}

int main(int, char **argv)
{
    if (std::atoi(argv[1]) == 1) measure<uint8_t>(std::atoi(argv[2]));
    else measure<uint32_t>(std::atoi(argv[2]));
}
