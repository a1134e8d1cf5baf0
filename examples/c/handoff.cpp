// A synchronous queue for threads of C++: the proved core, one mutex, and a condition variable for each seat. Two producers and
// two consumers hand numbers over, by calls with and without a limit, while a fifth thread interrupts them. At the end a proved
// checker has read the log of all calls.
//
// Proved: each step, its record, and the verdict of the checker. Not proved: this file and ibisbookcase.hpp (the lock, that a
// wait ends, that the hint `wake` is heeded), and the calling convention.
#include "ibisbookcase.hpp"
#include <atomic>
#include <chrono>
#include <condition_variable>
#include <iostream>
#include <mutex>
#include <optional>
#include <thread>
#include <vector>

using Clock = std::chrono::steady_clock;
using Limit = std::optional<std::chrono::milliseconds>;

class SyncQueue {
public:
    explicit SyncQueue(size_t seats) : gates(seats), core(IBIS_FAIR, seats), checker(IBIS_FAIR) {}

    // Whether the item was taken.
    bool give(size_t seat, uint64_t item, Limit limit = {}) { return ask(IBIS_GIVE, seat, item, limit).has_value(); }

    std::optional<uint64_t> take(size_t seat, Limit limit = {}) { return ask(IBIS_TAKE, seat, 0, limit); }

    void interrupt(size_t seat) {
        std::lock_guard<std::mutex> hold(lock);
        step(IBIS_INTERRUPT, 0, seat);
    }

    // Pushes the new records on the checker, and folds them away if they are legal. No other call is made meanwhile.
    ibis_found check() {
        ibis_found found = core.check(checker);
        ibis::need(found.status);
        return found;
    }

private:
    std::mutex lock;
    std::vector<std::condition_variable> gates;
    ibis::Queue core;
    ibis::Checker checker;

    ibis_answer step(uint64_t verb, size_t seat, uint64_t value) {
        ibis_answer answer = core.step(verb, seat, value);
        for (; answer.status == IBIS_HISTORY_FULL; answer = core.step(verb, seat, value)) check();
        ibis::need(answer.status);
        if (answer.wake) gates[answer.wake - 1].notify_one();
        return answer;
    }

    // Waits until the request is matched or interrupted, or its time is over. If it was matched: the item, of a take.
    std::optional<uint64_t> ask(uint64_t verb, size_t seat, uint64_t item, Limit limit) {
        auto until = Clock::now() + limit.value_or(std::chrono::milliseconds(0));
        std::unique_lock<std::mutex> hold(lock);
        ibis_answer answer = step(verb, seat, item);
        uint64_t ticket = answer.ticket;
        while (answer.outcome == IBIS_WAITS || answer.outcome == IBIS_NOT_YET) {
            if (limit) gates[seat].wait_until(hold, until);
            else gates[seat].wait(hold);
            answer = step(limit && Clock::now() >= until ? IBIS_EXPIRE : IBIS_FOLLOW_UP, seat, ticket);
            if (answer.outcome == IBIS_LATE) answer = step(IBIS_FOLLOW_UP, seat, ticket);
        }
        bool matched = answer.outcome == IBIS_MEETS || answer.outcome == IBIS_DONE || answer.outcome == IBIS_GOT;
        return matched ? std::optional<uint64_t>(answer.item) : std::nullopt;
    }
};

int main(int argc, char **argv) {
    const uint64_t each = argc > 1 ? std::stoull(argv[1]) : 10000;
    SyncQueue queue(4);
    std::atomic<bool> done{false};
    uint64_t sums[4] = {};
    std::vector<std::thread> threads;
    for (size_t seat = 0; seat < 4; seat++)
        threads.emplace_back([&, seat] { // a call that timed out or was interrupted is made again
            for (uint64_t number = 1; number <= each;) {
                Limit limit = number % 3 ? Limit() : Limit(1);
                uint64_t got = seat < 2 ? (queue.give(seat, number, limit) ? number : 0) : queue.take(seat, limit).value_or(0);
                if (got) sums[seat] += got, number++;
            }
        });
    std::thread interrupter([&] {
        for (size_t seat = 0; !done; seat = (seat + 1) % 4) queue.interrupt(seat), std::this_thread::sleep_for(std::chrono::microseconds(200));
    });
    for (auto &thread : threads) thread.join();
    done = true;
    interrupter.join();
    ibis_found found = queue.check();
    if (sums[0] + sums[1] != sums[2] + sums[3] || found.waiting || found.uncollected || found.kept) return 1;
    std::cout << 2 * each << " items handed over, the log is legal\n";
    std::cerr << found.records << " records\n";
}
