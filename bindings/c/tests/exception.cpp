// A C++ exception that leaves a transaction gives it up, and the worker comes back: exception [TRANSACTIONS]
#include <cstdio>
#include <cstdlib>
#include <stdexcept>
#include <thread>
#include <vector>
#include <sto_atomic.h>

static constexpr int threads = 4, boxes = 8;
static sto_store *store;
static sto_box box[boxes];

struct Move {
    int from, to;
    bool throws;
    int64_t sum;
};

static sto_verdict move(sto_tx *tx, void *given)
{
    auto *m = static_cast<Move *>(given);
    sto_box_set(tx, box[m->from], sto_box_get(tx, box[m->from]) - 1);
    if (m->throws) throw std::runtime_error("mine");
    sto_box_set(tx, box[m->to], sto_box_get(tx, box[m->to]) + 1);
    return STO_COMMIT;
}

static void work(unsigned seed, long rounds, long *caught, long *done)
{
    unsigned x = seed * 2654435761u + 1;
    for (long i = 0; i < rounds; i++) {
        x = x * 1664525u + 1013904223u;
        Move m = {int(x >> 8) % boxes, int(x >> 16) % boxes, (x >> 28) < 4, 0};
        try {
            if (sto_atomically(store, move, &m, nullptr, nullptr) == STO_OK) ++*done;
        } catch (const std::runtime_error &) {
            ++*caught;
        }
    }
}

int main(int argc, char **argv)
{
    const long rounds = (argc > 1 ? std::atol(argv[1]) : 1000) / threads;
    store = sto_store_new();
    for (auto &it : box) it = sto_new_box(store, 100);
    // (one worker less than threads: one that was lost would be missed)
    if (sto_store_open(store, threads - 1)) return 1;
    std::vector<std::thread> all;
    long caught[threads] = {}, done[threads] = {}, thrown = 0, moved = 0;
    for (int i = 0; i < threads; i++) all.emplace_back(work, unsigned(i), rounds, &caught[i], &done[i]);
    for (auto &it : all) it.join();
    for (int i = 0; i < threads; i++) thrown += caught[i], moved += done[i];
    sto_counts counts;
    sto_stats(store, &counts, sizeof counts);
    sto_row *rows;
    size_t count;
    int64_t sum = 0;
    if (sto_store_close(store, &rows, &count)) return 1;
    for (size_t i = 0; i < count; i++) sum += rows[i].value;
    std::free(rows);
    std::printf("exceptions: %ld transactions, %ld exceptions caught, sum %lld\n", moved, thrown, (long long)sum);
    const bool counted = counts.commits == (uint64_t)moved && counts.given_up == (uint64_t)thrown;
    return counted && sum == boxes * 100 && moved + thrown == rounds * threads && thrown > 0 ? 0 : 1;
}
