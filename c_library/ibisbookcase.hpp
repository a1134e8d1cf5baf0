// Ibisbookcase for programs in C++17: handles that free themselves, over ibisbookcase.h, which says what a program owes and
// what each call does. An object is given to one call at a time. Nothing in this file is proved.
#ifndef IBISBOOKCASE_HPP
#define IBISBOOKCASE_HPP
#include "ibisbookcase.h"
#include <stdexcept>
#include <string>
#include <utility>

namespace ibis {

// A call was refused: its status.
struct Refused : std::runtime_error {
    explicit Refused(uint64_t status) : std::runtime_error("ibisbookcase: status " + std::to_string(status)), status(status) {}
    uint64_t status;
};

inline void need(uint64_t status) {
    if (status != IBIS_OK) throw Refused(status);
}

// What a handle holds, freed at the end. It may be moved, and not copied.
class Held {
public:
    Held() = default;
    Held(Held &&other) noexcept { std::swap(handle, other.handle); }
    Held &operator=(Held &&other) noexcept { return std::swap(handle, other.handle), *this; }
    ~Held() { ibis_free(&handle); }

protected:
    ibis_handle handle = IBIS_EMPTY;
    friend class Queue;
};

// A checker of a queue's records, from the first.
class Checker : public Held {
public:
    explicit Checker(uint64_t order, uint64_t bound = 0) { need(ibis_checker_new(&handle, order, bound)); }

    ibis_found push(const ibis_record *records, size_t count) {
        ibis_found found;
        ibis_checker_push(&handle, records, count, &found);
        return found;
    }

    ibis_found standing() {
        ibis_found found;
        ibis_checker_standing(&handle, &found);
        return found;
    }
};

// A queue of one thread with its log.
class Queue : public Held {
public:
    Queue(uint64_t order, uint64_t seats, uint64_t cap = 4096, uint64_t bound = 0) {
        need(ibis_queue_new(&handle, order, bound, seats, 1, cap));
    }

    // What came of a call. Its status says whether it was refused.
    ibis_answer step(uint64_t verb, uint64_t seat, uint64_t value = 0) {
        ibis_answer answer;
        ibis_queue_step(&handle, verb, seat, value, &answer);
        return answer;
    }

    ibis_look look() {
        ibis_look seen;
        need(ibis_queue_look(&handle, &seen));
        return seen;
    }

    size_t records(size_t from, ibis_record *into, size_t room) {
        size_t count = 0;
        need(ibis_queue_records(&handle, from, into, room, &count));
        return count;
    }

    // Pushes the new records on the checker, and folds them away if they are legal.
    ibis_found check(Checker &checker) {
        ibis_found found;
        ibis_queue_check(&handle, &checker.handle, &found);
        return found;
    }

    uint64_t cut() {
        uint64_t gone = 0;
        need(ibis_queue_cut(&handle, &gone));
        return gone;
    }

    ibis_base base() {
        ibis_base base;
        need(ibis_queue_base(&handle, &base));
        return base;
    }

    ibis_base_row base_row(size_t index) {
        ibis_base_row row;
        need(ibis_queue_base_row(&handle, index, &row));
        return row;
    }
};

} // namespace ibis
#endif
