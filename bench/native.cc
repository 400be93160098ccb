// The calls of `oa workload N C` on a native set, libcds's Michael hash set over hazard pointers, for bench/native.sh.
// Usage: native N C. Writes the two lines of a workload up to their counts, and the milliseconds of each part.
#include <cds/init.h>
#include <cds/gc/hp.h>
#include <cds/container/michael_list_hp.h>
#include <cds/container/michael_set.h>
#include <algorithm>
#include <chrono>
#include <cstdio>
#include <cstdlib>
#include <thread>
#include <vector>

using Gc = cds::gc::HP;
using List = cds::container::MichaelList<Gc, unsigned long, cds::container::michael_list::make_traits<cds::opt::less<std::less<unsigned long>>>::type>;
struct Hash {
    std::size_t operator()(unsigned long key) const { return key; }
};
struct Traits : cds::container::michael_set::traits {
    using hash = Hash;
};
using Set = cds::container::MichaelHashSet<Gc, List, Traits>;

struct Counts {
    unsigned long ones = 0, zeros = 0;
};

static Counts run_calls(Set& set, unsigned long caller, unsigned long calls) {
    Counts counts;
    unsigned long seed = caller + 1, key = 1000 * caller + seed % 50, before = key;
    for (unsigned long i = 0; i < calls; ++i) {
        if (i > 0 && i % 4 == 0) {
            seed = (75 * seed + 74) % 65537;
            before = key;
            key = 1000 * caller + seed % 50;
        }
        bool answer = i % 4 == 0 ? set.insert(key) : i % 4 == 1 ? set.contains(key) : i % 4 == 2 ? set.erase(before) : set.contains(before);
        ++(answer ? counts.ones : counts.zeros);
    }
    return counts;
}

static double since(std::chrono::steady_clock::time_point start) {
    return std::chrono::duration<double, std::milli>(std::chrono::steady_clock::now() - start).count();
}

int main(int, char** words) {
    unsigned long count = std::atol(words[1]), callers = std::atol(words[2]), each = std::min(count, 2000ul);
    cds::Initialize();
    {
        Gc gc;
        cds::threading::Manager::attachThread();
        {
            Set set(64, 8);
            std::vector<Counts> counts(callers);
            auto start = std::chrono::steady_clock::now();
            std::vector<std::thread> threads;
            for (unsigned long c = 0; c < callers; ++c)
                threads.emplace_back([&, c] {
                    cds::threading::Manager::attachThread();
                    counts[c] = run_calls(set, c, each);
                    cds::threading::Manager::detachThread();
                });
            for (auto& it : threads) it.join();
            double took = since(start);
            Counts all;
            for (auto& it : counts) all.ones += it.ones, all.zeros += it.zeros;
            std::printf("part 1 callers %lu operations %lu ones %lu zeros %lu: %.2f ms\n", callers, callers * each, all.ones, all.zeros, took);
        }
        {
            Set set(64, 8);
            auto start = std::chrono::steady_clock::now();
            Counts all = run_calls(set, 0, count);
            std::printf("part 2 operations %lu ones %lu zeros %lu: %.2f ms\n", count, all.ones, all.zeros, since(start));
        }
        cds::threading::Manager::detachThread();
    }
    cds::Terminate();
}
