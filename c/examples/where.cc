// Prints the frames at an address of a file: where FILE ADDRESS
#include <addr2line.hpp>
#include <iostream>

int main(int argc, char **argv)
{
    if (argc != 3) {
        return 2;
    }
    try {
        addr2line::Context context(argv[1]);
        for (const auto &frame : context.frames(std::stoull(argv[2], nullptr, 16))) {
            std::cout << frame.function.value_or("??") << ' ' << frame.location.file.value_or("??") << ':'
                      << frame.location.line.value_or(0) << '\n';
        }
    } catch (const std::exception &error) {
        std::cerr << error.what() << '\n';
        return 1;
    }
}
