/* Reads a problem's text (docs/FORMATS.md) for the peers, and takes the time that solving takes. */
#include <cstdint>
#include <cstdio>
#include <cstdlib>
#include <cstring>
#include <ctime>
#include <iostream>
#include <iterator>
#include <string>
#include <vector>

struct Pair {
    int person, object;
    int64_t cost;
};

struct Text {
    int n = 0;
    bool sparse = false;
    std::vector<Pair> pairs;

    explicit Text(bool is_sparse) : sparse(is_sparse) {
        std::ios::sync_with_stdio(false);
        std::string held((std::istreambuf_iterator<char>(std::cin)), std::istreambuf_iterator<char>());
        char *at = &held[0];
        n = static_cast<int>(strtoll(at, &at, 10));
        if (!sparse) pairs.reserve(static_cast<size_t>(n) * n);
        for (int place = 0; sparse ? more(at) : place < n * n; place++) {
            int person = sparse ? static_cast<int>(strtoll(at, &at, 10)) - 1 : place / n;
            int object = sparse ? static_cast<int>(strtoll(at, &at, 10)) - 1 : place % n;
            pairs.push_back({person, object, strtoll(at, &at, 10)});
        }
    }

    static bool more(char *&at) {
        at += strspn(at, " \t\r\n");
        return *at != 0;
    }
};

/* Prints the cost, and on standard error the seconds of processor time since it was made. */
class Watch {
    std::clock_t begin = std::clock();

public:
    void tell(int64_t cost) const {
        double gone = static_cast<double>(std::clock() - begin) / CLOCKS_PER_SEC;
        std::printf("cost %lld\n", static_cast<long long>(cost));
        std::fprintf(stderr, "%.6f\n", gone);
    }
};
