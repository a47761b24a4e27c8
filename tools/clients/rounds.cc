// A program that is busy in its own functions, those of the standard library and the C library:
// tools/check_clients and tools/check_many.
#include <algorithm>
#include <cstdio>
#include <cstdlib>
#include <map>
#include <string>
#include <vector>
struct Tally {
    std::map<std::string, long> counts;
    void add(const std::string& word) { counts[word]++; }
    long most() const {
        long best = 0;
        for (const auto& entry : counts) best = std::max(best, entry.second);
        return best;
    }
};
static inline unsigned next(unsigned& state) { return state = state * 1103515245u + 12345u; }
static std::string word(unsigned& state) {
    std::string text;
    for (unsigned n = 2 + next(state) / 65536 % 3; n; n--) text += 'a' + next(state) / 65536 % 6;
    return text;
}
__attribute__((noinline)) long round_of(unsigned seed) {
    Tally tally;
    std::vector<unsigned> all;
    unsigned state = seed;
    for (int i = 0; i < 20000; i++) { tally.add(word(state)); all.push_back(next(state)); }
    std::sort(all.begin(), all.end(), [](unsigned a, unsigned b) { return a % 1000 < b % 1000; });
    std::qsort(all.data(), all.size(), sizeof(unsigned), [](const void* a, const void* b) {
        auto key = [](const void* each) { return int(*static_cast<const unsigned*>(each) % 1000); };
        return key(a) - key(b); });
    return tally.most() + all[0] % 2;
}
int main(int argc, char** argv) {
    long sum = 0;
    for (long n = argc > 1 ? std::atol(argv[1]) : 50; n; n--) sum += round_of(n);
    std::printf("%ld\n", sum);
    return 0;
}
