// Records calls of a queue of one's own for `meet judge`. Copy it, and put your own queue in at YOUR QUEUE.
//
//     g++ -std=c++17 -O2 -pthread -o recorder recorder.cpp && ./recorder BOUND plain|mixed THREADS CALLS SEED > out.calls
//
// Half of the THREADS give and half take, CALLS each. A plain run makes `put` and `take` alone. A mixed run makes immediate and timed calls
// too, and one thread more serves those that are left at the end.
#include <algorithm>
#include <atomic>
#include <chrono>
#include <condition_variable>
#include <deque>
#include <iostream>
#include <mutex>
#include <optional>
#include <random>
#include <string>
#include <thread>
#include <vector>

using Clock = std::chrono::steady_clock;
using Limit = std::optional<Clock::time_point>; // until when a call waits; none: for as long as it takes

// YOUR QUEUE: here one of a lock and two condition variables, which buffers BOUND items.
class Queue {
    std::mutex lock;
    std::condition_variable room, filled;
    std::deque<long> items;
    std::size_t bound;

    template <class Ready> bool wait(std::unique_lock<std::mutex> &held, std::condition_variable &bell, Limit until, Ready ready) {
        if (until) return bell.wait_until(held, *until, ready);
        bell.wait(held, ready);
        return true;
    }

public:
    explicit Queue(std::size_t bound) : bound(bound) {}

    bool put(long item, Limit until) {
        std::unique_lock held(lock);
        if (!wait(held, room, until, [&] { return items.size() < bound; })) return false;
        items.push_back(item);
        filled.notify_one();
        return true;
    }

    std::optional<long> take(Limit until) {
        std::unique_lock held(lock);
        if (!wait(held, filled, until, [&] { return !items.empty(); })) return std::nullopt;
        long item = items.front();
        items.pop_front();
        room.notify_one();
        return item;
    }
};

struct Call { long begin; std::string line; };
const Clock::time_point zero = Clock::now();
long now() { return std::chrono::nanoseconds(Clock::now() - zero).count(); }

// Makes a call of a seat, a thread's number: 0 waits, 1 is immediate, 2 has a limit. All threads read one monotonic clock, right before the
// call and right after it.
Call record(Queue &queue, int seat, bool gives, int kind, long item, long nanoseconds) {
    const char *verbs[] = {"take", "poll", "poll-for", "put", "offer", "offer-for"}, *nothing[] = {"", "none", "expired"};
    std::string asked = verbs[kind + 3 * gives] + (gives ? " " + std::to_string(item) : "");
    long begin = now();
    Limit until = kind == 0 ? Limit() : Clock::now() + std::chrono::nanoseconds(kind == 1 ? 0 : nanoseconds);
    std::optional<long> found = gives ? (queue.put(item, until) ? std::optional(item) : std::nullopt) : queue.take(until);
    long end = now();
    std::string answer = !found ? nothing[kind] : gives ? "done" : "got " + std::to_string(*found);
    return {begin, std::to_string(seat) + " " + std::to_string(begin) + " " + std::to_string(end) + " " + asked + " " + answer};
}

int main(int, char **words) {
    int bound = std::stoi(words[1]), kinds = std::string(words[2]) == "mixed" ? 3 : 1, count = std::stoi(words[3]), calls = std::stoi(words[4]);
    Queue queue(bound);
    std::vector<std::vector<Call>> logs(count + 1);
    std::atomic<int> left[2] = {(count + 1) / 2, count / 2};
    std::vector<std::thread> threads;
    for (int seat = 0; seat < count; seat++)
        threads.emplace_back([&, seat] {
            std::mt19937 chance(std::stoi(words[5]) * 31 + seat);
            for (long item = long(seat) * calls + 1; item <= long(seat + 1) * calls; item++)
                logs[seat].push_back(record(queue, seat, seat % 2 == 0, chance() % kinds, item, 1000 + chance() % 200000));
            left[seat % 2]--;
        });
    for (long item = long(count) * calls + 1; left[0] + left[1] > 0 && kinds > 1; item++, std::this_thread::sleep_for(std::chrono::microseconds(300)))
        if (left[0] == 0 || left[1] == 0) logs[count].push_back(record(queue, count, left[0] == 0, 1, item, 0));
    for (auto &thread : threads) thread.join();
    std::vector<Call> all;
    for (auto &log : logs) all.insert(all.end(), log.begin(), log.end());
    std::stable_sort(all.begin(), all.end(), [](const Call &one, const Call &other) { return one.begin < other.begin; });
    std::cout << "calls 1 buffer " << bound << "\n";
    for (auto &call : all) std::cout << call.line << "\n";
}
