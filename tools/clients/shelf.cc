// A program that reads past the end of a box, in a function that is inlined: tools/check_clients.
#include <cstdio>
#include <cstdlib>
#include <vector>
namespace shop {
struct Shelf {
    std::vector<int*> boxes;
    explicit Shelf(int count) { for (int n = 0; n < count; n++) boxes.push_back(new int[4]); }
    inline __attribute__((always_inline)) int at(int box, int place) const {
        return boxes[box][place];
    }
};
template <class T> static inline __attribute__((always_inline)) T twice(T value) {
    return value + value;
}
__attribute__((noinline)) int count(const Shelf& shelf, int place) {
    int sum = 0;
    for (int box = 0; box < 3; box++)
        sum += twice(shelf.at(box, place));
    return sum;
}
}
int main(int argc, char** argv) {
    shop::Shelf shelf(3);
    std::printf("%d\n", shop::count(shelf, argc > 1 ? std::atoi(argv[1]) : 4));
    return 0;
}
