// map.cpp: a plain ordered map under a mutex, with the work of `load`: four threads insert the rows 0, 1, .., each with a = key mod 7, while
// another thread adds an index on a. From its first step on each insert keeps the index, and a fill goes over the rows, 1,000 under the lock
// at a time.
// g++ -O2 -pthread -o /tmp/map tools/peers/map.cpp && /tmp/map
#include <atomic>
#include <chrono>
#include <cstdio>
#include <map>
#include <mutex>
#include <set>
#include <thread>
#include <utility>
#include <vector>

const long ROWS = 100000, STEP = 1000;
const int THREADS = 4;

struct Store {
    std::mutex lock;
    std::map<long, long> table;
    std::set<std::pair<long, long>> index;
    bool is_indexed = false;
};

// Inserts the rows that it draws.
static void insert_rows(Store &store, std::atomic<long> &next) {
    for (long key = next++; key < ROWS; key = next++) {
        std::lock_guard<std::mutex> held(store.lock);
        store.table.emplace(key, key % 7);
        if (store.is_indexed) {
            store.index.emplace(key % 7, key);
        }
    }
}

// The next rows of the fill, from this key on: whether any are left.
static bool fill_some(Store &store, long &from) {
    std::lock_guard<std::mutex> held(store.lock);
    auto at = store.table.lower_bound(from);
    for (long i = 0; i < STEP && at != store.table.end(); i++, ++at) {
        store.index.emplace(at->second, at->first);
        from = at->first + 1;
    }
    return at != store.table.end();
}

static void add_index(Store &store) {
    {
        std::lock_guard<std::mutex> held(store.lock);
        store.is_indexed = true;
    }
    long from = 0;
    while (fill_some(store, from)) {
    }
}

int main() {
    Store store;
    std::atomic<long> next(0);
    auto begun = std::chrono::steady_clock::now();
    std::vector<std::thread> threads;
    for (int t = 0; t < THREADS; t++) {
        threads.emplace_back([&] { insert_rows(store, next); });
    }
    add_index(store);
    for (auto &thread : threads) {
        thread.join();
    }
    std::chrono::duration<double> taken = std::chrono::steady_clock::now() - begun;
    std::printf("%zu rows, %.3f s, %.0f rows/s\n", store.table.size(), taken.count(), ROWS / taken.count());
    return store.index.size() == (size_t)ROWS ? 0 : 1;
}
