// What threads that ask at once cost one another. With no words it compares what they answer, on few
// keys, also by the other calls that may be made side by side. With two, as many keys as the first
// says and as many questions for each thread as the second,
//
//     threads KEYS QUESTIONS
//
// it prints the nanoseconds that each thread takes for a question, for 1, 2 and 4 threads: by
// kuldebiq_find over keys and hints that all share, and by kuldebiq_position with a handle for each,
// side by side in one array, or 64 bytes apart. Threads that cost one another nothing take as long as
// one.
#include "kuldebiq.h"

#include <algorithm>
#include <atomic>
#include <chrono>
#include <cstddef>
#include <cstdint>
#include <cstdlib>
#include <iomanip>
#include <iostream>
#include <random>
#include <thread>
#include <vector>

namespace {

using Numbers = std::vector<std::uint64_t>;

struct Beside {
    kuldebiq_index handle = KULDEBIQ_NOTHING;
};

struct alignas(64) Apart {
    kuldebiq_index handle = KULDEBIQ_NOTHING;
};

void expect(bool holds, const char *what) {
    if (!holds) {
        std::cerr << "differs: " << what << '\n';
        std::exit(1);
    }
}

Numbers random_numbers(std::uint64_t seed, std::size_t count) {
    std::mt19937_64 random(seed);
    Numbers numbers(count);
    for (std::uint64_t &number : numbers) number = random();
    return numbers;
}

using Narrow = std::vector<std::uint32_t>;

kuldebiq_answer built(kuldebiq_hints *held, const Numbers &keys) {
    return kuldebiq_hints_build(held, keys.data(), keys.size(), 64);
}

kuldebiq_answer built(kuldebiq_hints *held, const Narrow &keys) {
    return kuldebiq_hints_build32(held, keys.data(), keys.size(), 64);
}

template <typename Keys> Numbers hints_of(const Keys &keys) {
    kuldebiq_hints held = KULDEBIQ_NOTHING;
    const kuldebiq_answer made = built(&held, keys);
    expect(made.status == KULDEBIQ_DONE, "hints");
    Numbers hints(made.number);
    const kuldebiq_answer written = kuldebiq_hints_write(&held, hints.data(), hints.size());
    expect(written.status == KULDEBIQ_DONE && written.number == hints.size(), "their hints");
    kuldebiq_hints_free(&held);
    return hints;
}

// Has each thread ask its questions, and adds what it is told to its sum. Gives the nanoseconds that
// a question took. The threads begin together.
template <typename Ask>
double asked(const std::vector<Numbers> &questions, std::size_t threads, Numbers &sums, Ask ask) {
    std::atomic<std::size_t> ready{0};
    std::atomic<bool> begin{false};
    std::vector<std::thread> running;
    for (std::size_t i = 0; i < threads; i++) {
        running.emplace_back([&, i] {
            std::uint64_t sum = 0;
            ready++;
            while (!begin) std::this_thread::yield();
            for (const std::uint64_t question : questions[i]) sum += ask(i, question);
            sums[i] = sum;
        });
    }
    while (ready < threads) std::this_thread::yield();
    const auto from = std::chrono::steady_clock::now();
    begin = true;
    for (std::thread &thread : running) thread.join();
    const std::chrono::duration<double, std::nano> took = std::chrono::steady_clock::now() - from;
    return took.count() / double(questions[0].size());
}

// The same with a handle for each thread.
template <typename Handle>
double asked_by(kuldebiq_index &index, const std::vector<Numbers> &questions, std::size_t threads,
                Numbers &sums) {
    std::vector<Handle> handles(threads);
    for (Handle &one : handles) {
        expect(kuldebiq_index_share(&index, &one.handle).status == KULDEBIQ_DONE, "a share");
    }
    const double took = asked(questions, threads, sums, [&](std::size_t i, std::uint64_t question) {
        return kuldebiq_position(&handles[i].handle, question).number;
    });
    for (Handle &one : handles) kuldebiq_index_free(&one.handle);
    return took;
}

Numbers wanted(const Numbers &keys, const std::vector<Numbers> &questions) {
    Numbers sums;
    for (const Numbers &list : questions) {
        std::uint64_t sum = 0;
        for (const std::uint64_t question : list) {
            sum += std::uint64_t(std::lower_bound(keys.begin(), keys.end(), question) - keys.begin());
        }
        sums.push_back(sum);
    }
    return sums;
}

// Keys, and the upper halves of them, with hints of each. Any key is the code of a point.
struct Lists {
    Numbers keys, hints;
    Narrow narrow;
    Numbers narrow_hints;
};

Lists lists_of(const Numbers &keys, const Numbers &hints) {
    Narrow narrow;
    for (const std::uint64_t key : keys) narrow.push_back(std::uint32_t(key >> 32));
    return {keys, hints, narrow, hints_of(narrow)};
}

// What the calls say that are given lists which all share, and a map of the caller's own.
Numbers answers(const Lists &lists, const Numbers &questions) {
    const Numbers &keys = lists.keys, &hints = lists.hints;
    const std::size_t count = questions.size();
    Numbers said;
    const auto keep = [&](kuldebiq_answer answer, const auto &written) {
        said.insert(said.end(), {answer.status, answer.number});
        said.insert(said.end(), written.begin(), written.end());
    };
    const auto find = [&](auto call, const auto &list, const Numbers &its_hints) {
        std::vector<std::size_t> places(count);
        keep(call(list.data(), list.size(), its_hints.data(), its_hints.size(), questions.data(),
                  count, places.data(), count),
             places);
    };
    find(kuldebiq_find_past_many, keys, hints);
    find(kuldebiq_find_many32, lists.narrow, lists.narrow_hints);
    find(kuldebiq_find_past_many32, lists.narrow, lists.narrow_hints);
    for (const std::uint64_t question : questions) {
        const auto find_one = [&](auto call) {
            return call(lists.narrow.data(), lists.narrow.size(), lists.narrow_hints.data(),
                        lists.narrow_hints.size(), question >> 32);
        };
        const std::uint32_t centre[] = {std::uint32_t(question >> 32), std::uint32_t(question)};
        kuldebiq_neighbour near{};
        const kuldebiq_answer nearest =
            kuldebiq_nearest(keys.data(), keys.size(), hints.data(), hints.size(), centre, 2,
                             KULDEBIQ_EUCLID, &near, 1);
        keep(nearest, Numbers{near.place, near.distance, near.distance_high,
                              kuldebiq_told(hints.data(), hints.size(), keys.size(), question),
                              find_one(kuldebiq_find32), find_one(kuldebiq_find_past32)});
    }
    kuldebiq_hints_facts facts{};
    kuldebiq_hints_of(hints.data(), hints.size(), &facts);
    kuldebiq_map map = KULDEBIQ_NOTHING;
    std::vector<kuldebiq_pair> pairs;
    for (const std::uint64_t key : keys) pairs.push_back({key, ~key});
    keep(kuldebiq_map_load(&map, 10, pairs.data(), pairs.size()),
         Numbers{facts.known, facts.epsilon, facts.lines});
    for (const Numbers &list : {keys, questions}) {
        Numbers values(list.size());
        std::vector<std::uint8_t> present(list.size());
        keep(kuldebiq_map_get_many(&map, list.data(), list.size(), values.data(), values.size(),
                                   present.data(), present.size()),
             values);
        said.insert(said.end(), present.begin(), present.end());
    }
    kuldebiq_map_free(&map);
    return said;
}

// Four threads are answered the same as one after the other.
void compare_side_by_side(const Lists &lists, const std::vector<Numbers> &questions) {
    std::vector<Numbers> beside(questions.size());
    std::vector<std::thread> running;
    for (std::size_t i = 0; i < questions.size(); i++) {
        running.emplace_back([&, i] { beside[i] = answers(lists, questions[i]); });
    }
    for (std::thread &thread : running) thread.join();
    for (std::size_t i = 0; i < questions.size(); i++) {
        expect(beside[i] == answers(lists, questions[i]), "what calls side by side say");
    }
}

void run(std::size_t count, std::size_t each, bool timed) {
    Numbers keys = random_numbers(1, count);
    std::sort(keys.begin(), keys.end());
    const Numbers hints = hints_of(keys);
    kuldebiq_index index = KULDEBIQ_NOTHING;
    expect(kuldebiq_index_build(&index, keys.data(), keys.size(), 64, 4).status == KULDEBIQ_DONE,
           "an index");
    std::vector<Numbers> questions;
    for (std::uint64_t seed = 2; seed < 6; seed++) questions.push_back(random_numbers(seed, each));
    const Numbers want = wanted(keys, questions);
    if (!timed) {
        compare_side_by_side(lists_of(keys, hints), questions);
        std::cout << "calls side by side: no difference\n";
    }
    if (timed) std::cout << "threads  find  side by side  64 bytes apart\n";
    for (const std::size_t threads : {1, 2, 4}) {
        Numbers found(4), beside(4), apart(4);
        const double by_hints = asked(questions, threads, found, [&](std::size_t, std::uint64_t q) {
            return kuldebiq_find(keys.data(), keys.size(), hints.data(), hints.size(), q);
        });
        const double side_by_side = asked_by<Beside>(index, questions, threads, beside);
        const double far_apart = asked_by<Apart>(index, questions, threads, apart);
        for (std::size_t i = 0; i < threads; i++) {
            expect(found[i] == want[i], "what kuldebiq_find gives");
            expect(beside[i] == want[i], "what handles side by side give");
            expect(apart[i] == want[i], "what handles that lie apart give");
        }
        if (timed) {
            std::cout << std::fixed << std::setprecision(0) << std::setw(7) << threads << std::setw(6)
                      << by_hints << std::setw(14) << side_by_side << std::setw(16) << far_apart << '\n';
        } else {
            std::cout << "threads " << threads << ": no difference\n";
        }
    }
    kuldebiq_index_free(&index);
}

} // namespace

int main(int words, char **word) {
    if (words == 1) {
        run(20000, 5000, false);
    } else if (words == 3) {
        run(std::strtoull(word[1], nullptr, 10), std::strtoull(word[2], nullptr, 10), true);
    } else {
        std::cerr << "usage: threads [KEYS QUESTIONS]\n";
        return 2;
    }
    return 0;
}
