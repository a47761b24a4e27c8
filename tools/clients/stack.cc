// A program that prints its own stack by Boost.Stacktrace: tools/check_clients.
#define BOOST_STACKTRACE_USE_ADDR2LINE
#include <boost/stacktrace.hpp>
#include <iostream>
namespace shop {
struct Shelf {
    int place;
    void print() const {
        boost::stacktrace::stacktrace trace;
        for (std::size_t n = 0; n < trace.size(); n++)
            std::cout << trace[n].name() << "\t" << trace[n].source_file() << ":"
                      << trace[n].source_line() << "\t" << trace[n] << std::endl;
    }
};
template <class T> __attribute__((noinline)) void visit(const T& shelf, int depth) {
    if (depth) visit(shelf, depth - 1); else shelf.print();
    asm volatile("");
}
}
int main() {
    shop::visit(shop::Shelf{3}, 2);
    return 0;
}
