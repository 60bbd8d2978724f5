// The calls beside std::lower_bound, std::upper_bound and std::map, on as many random keys and updates as the first
// word says, a million where there is none. Says what differs, and ends with 1 then.
#include "kuldebiq.h"

#include <algorithm>
#include <cstdint>
#include <cstdlib>
#include <iostream>
#include <iterator>
#include <map>
#include <random>
#include <string>
#include <sys/mman.h>
#include <thread>
#include <utility>
#include <vector>

namespace {

using Keys = std::vector<std::uint64_t>;

constexpr std::uint32_t EPSILON = 64;
constexpr std::uint32_t EPSILON_ABOVE = 4;

void expect(bool holds, const char *what) {
    if (!holds) {
        std::cerr << "differs: " << what << '\n';
        std::exit(1);
    }
}

bool is(kuldebiq_answer answer, std::uint32_t status, std::uint64_t number) {
    return answer.status == status && answer.number == number;
}

bool gives(kuldebiq_answer answer, std::uint64_t number) {
    return is(answer, KULDEBIQ_DONE, number);
}

std::uint64_t below(const Keys &keys, std::uint64_t question) {
    return std::uint64_t(std::lower_bound(keys.begin(), keys.end(), question) - keys.begin());
}

// Half of them scattered, half of them near to one another, with repetitions.
Keys random_keys(std::mt19937_64 &random, std::size_t count) {
    Keys keys;
    for (std::size_t i = 0; i < count; i++) {
        keys.push_back(i % 2 == 0 ? random() : (std::uint64_t(1) << 40) + random() % count);
    }
    keys.push_back(UINT64_MAX);
    std::sort(keys.begin(), keys.end());
    return keys;
}

Keys random_questions(std::mt19937_64 &random, const Keys &keys) {
    Keys questions{0, UINT64_MAX};
    for (std::size_t i = 0; i < keys.size(); i++) {
        const std::uint64_t key = keys[random() % keys.size()];
        questions.push_back(i % 4 == 0 ? random() : key + i % 4 - 2);
    }
    return questions;
}

// Hints of keys, behind which two more numbers stay as they are.
Keys hints_of(const Keys &keys, std::uint32_t epsilon) {
    kuldebiq_hints held = KULDEBIQ_NOTHING;
    expect(is(kuldebiq_hints_count(&held), KULDEBIQ_NOTHING_HELD, 0), "no number of no hints");
    const kuldebiq_answer made = kuldebiq_hints_build(&held, keys.data(), keys.size(), epsilon);
    expect(made.status == KULDEBIQ_DONE && gives(kuldebiq_hints_count(&held), made.number),
           "how many hints");
    Keys hints(made.number + 2, 7);
    expect(is(kuldebiq_hints_write(&held, hints.data(), made.number - 1), KULDEBIQ_TOO_LITTLE_ROOM,
              made.number) &&
               hints[0] == 7 &&
               is(kuldebiq_hints_write(&held, nullptr, 0), KULDEBIQ_TOO_LITTLE_ROOM, made.number),
           "room for too few hints");
    expect(gives(kuldebiq_hints_write(&held, hints.data(), hints.size()), made.number), "the hints");
    expect(hints[made.number] == 7 && hints[made.number + 1] == 7, "what lies behind the hints");
    hints.resize(made.number);
    const std::uint64_t lines = hints[2];
    expect(hints.size() >= 6 + 3 * lines && hints.size() <= 6 + 5 * lines,
           "how many hints there are for so many lines");
    // A refusal leaves the handle as it is.
    const Keys falling{1, 4, 4, 3, 2};
    expect(is(kuldebiq_hints_build(&held, falling.data(), 5, epsilon), KULDEBIQ_UNSORTED, 3) &&
               is(kuldebiq_hints_build(&held, falling.data(), 5, 1048577), KULDEBIQ_EPSILON_TOO_GREAT,
                  1048577) &&
               gives(kuldebiq_hints_count(&held), made.number),
           "hints that are refused");
    kuldebiq_hints_free(&held);
    kuldebiq_hints_free(&held);
    return hints;
}

// The places of all questions, in a room for three more, which stay as they are.
std::vector<std::size_t> places_of(const Keys &keys, const Keys &hints, const Keys &questions) {
    std::vector<std::size_t> places(questions.size() + 3, 7);
    expect(gives(kuldebiq_find_many(keys.data(), keys.size(), hints.data(), hints.size(),
                                    questions.data(), questions.size(), places.data(), places.size()),
                 questions.size()),
           "how many places");
    expect(std::count(places.end() - 3, places.end(), std::size_t(7)) == 3, "what lies behind places");
    places.resize(questions.size());
    return places;
}

// The places behind all questions, likewise.
std::vector<std::size_t> places_past(const Keys &keys, const Keys &hints, const Keys &questions) {
    std::vector<std::size_t> places(questions.size() + 3, 7);
    expect(gives(kuldebiq_find_past_many(keys.data(), keys.size(), hints.data(), hints.size(),
                                         questions.data(), questions.size(), places.data(),
                                         places.size()),
                 questions.size()),
           "how many places past questions");
    expect(std::count(places.end() - 3, places.end(), std::size_t(7)) == 3,
           "what lies behind places past questions");
    places.resize(questions.size());
    return places;
}

// By these hints, which need not be those of the keys.
void compare_found(const Keys &keys, const Keys &hints, const Keys &questions) {
    const std::vector<std::size_t> places = places_of(keys, hints, questions);
    const std::vector<std::size_t> past = places_past(keys, hints, questions);
    for (std::size_t i = 0; i < questions.size(); i++) {
        const std::uint64_t want = below(keys, questions[i]);
        const auto after = std::upper_bound(keys.begin(), keys.end(), questions[i]);
        expect(places[i] == want, "one of many places");
        expect(kuldebiq_find(keys.data(), keys.size(), hints.data(), hints.size(), questions[i]) == want,
               "a place");
        expect(kuldebiq_find_past(keys.data(), keys.size(), hints.data(), hints.size(), questions[i]) ==
                   std::size_t(after - keys.begin()),
               "the place past a question");
        expect(past[i] == std::size_t(after - keys.begin()), "one of many places past questions");
    }
}

// The upper halves of the keys, as keys of 32 bits: the same places as of these numbers in 64.
void compare_narrow(const Keys &keys, const Keys &questions) {
    std::vector<std::uint32_t> narrow;
    for (const std::uint64_t key : keys) narrow.push_back(std::uint32_t(key >> 32));
    const Keys wide(narrow.begin(), narrow.end());
    kuldebiq_hints held = KULDEBIQ_NOTHING;
    const std::uint32_t falling[] = {1, 4, 3};
    expect(is(kuldebiq_hints_build32(&held, falling, 3, 1), KULDEBIQ_UNSORTED, 2), "keys that fall");
    const kuldebiq_answer made = kuldebiq_hints_build32(&held, narrow.data(), narrow.size(), EPSILON);
    expect(made.status == KULDEBIQ_DONE, "hints of keys of 32 bits");
    Keys hints(made.number);
    expect(gives(kuldebiq_hints_write(&held, hints.data(), hints.size()), made.number) &&
               hints == hints_of(wide, EPSILON),
           "that they are those of the same keys in 64 bits");
    kuldebiq_hints_free(&held);
    Keys asked;
    for (const std::uint64_t question : questions) asked.push_back(question >> (question % 3 * 16));
    std::vector<std::size_t> places(asked.size()), past(asked.size());
    expect(gives(kuldebiq_find_many32(narrow.data(), narrow.size(), hints.data(), hints.size(),
                                      asked.data(), asked.size(), places.data(), places.size()),
                 asked.size()) &&
               gives(kuldebiq_find_past_many32(narrow.data(), narrow.size(), hints.data(),
                                               hints.size(), asked.data(), asked.size(), past.data(),
                                               past.size()),
                     asked.size()),
           "how many places in keys of 32 bits");
    for (std::size_t i = 0; i < asked.size(); i++) {
        const std::size_t want = below(wide, asked[i]);
        const auto after = std::upper_bound(wide.begin(), wide.end(), asked[i]);
        const std::size_t want_past = std::size_t(after - wide.begin());
        expect(places[i] == want && past[i] == want_past, "many places in keys of 32 bits");
        expect(kuldebiq_find32(narrow.data(), narrow.size(), hints.data(), hints.size(), asked[i]) ==
                       want &&
                   kuldebiq_find_past32(narrow.data(), narrow.size(), hints.data(), hints.size(),
                                        asked[i]) == want_past,
               "a place in keys of 32 bits");
    }
}

// Hints lead to within their epsilon + 2.
void compare_told(const Keys &keys, const Keys &hints, const Keys &questions) {
    kuldebiq_hints_facts facts{};
    kuldebiq_hints_of(hints.data(), hints.size(), &facts);
    expect(facts.known == 1 && facts.epsilon == EPSILON && facts.lines == hints[2],
           "what hints say of themselves");
    for (const std::uint64_t question : questions) {
        const std::size_t told = kuldebiq_told(hints.data(), hints.size(), keys.size(), question);
        const std::size_t place = below(keys, question);
        expect((told < place ? place - told : told - place) <= EPSILON + 2, "where hints lead");
    }
    kuldebiq_hints_of(hints.data(), hints.size() - 1, &facts);
    expect(facts.known == 0 && facts.epsilon == 0 && facts.lines == 0, "hints that are cut off");
    expect(kuldebiq_told(nullptr, 0, keys.size(), 5) == 0, "where no hints lead");
}

// The key before the place is below the question, and that at it isn't.
bool is_bracket(const Keys &keys, std::uint64_t question, std::size_t place) {
    return place <= keys.size() && (place == 0 || keys[place - 1] < question) &&
           (place == keys.size() || keys[place] >= question);
}

// Places in keys that may fall.
void compare_brackets(const Keys &keys, const Keys &hints, const Keys &questions) {
    const std::vector<std::size_t> places = places_of(keys, hints, questions);
    for (std::size_t i = 0; i < questions.size(); i++) {
        const std::size_t place =
            kuldebiq_find(keys.data(), keys.size(), hints.data(), hints.size(), questions[i]);
        expect(is_bracket(keys, questions[i], place), "a bracket");
        expect(is_bracket(keys, questions[i], places[i]), "one of many brackets");
    }
}

void compare_finding(std::mt19937_64 &random, const Keys &keys, const Keys &questions) {
    const Keys hints = hints_of(keys, EPSILON);
    compare_found(keys, hints, questions);
    const Keys few(questions.begin(), questions.begin() + std::min<std::size_t>(questions.size(), 2000));
    compare_told(keys, hints, questions);
    compare_narrow(keys, few);
    compare_found(keys, hints_of(keys, 0), few);
    compare_found(keys, {}, few);
    compare_found({}, hints, few);
    Keys damaged = hints;
    for (std::size_t i = 2; i < damaged.size(); i += 1 + random() % 8) damaged[i] = random();
    compare_found(keys, damaged, few);
    Keys mixed = keys;
    std::shuffle(mixed.begin(), mixed.end(), random);
    compare_brackets(mixed, hints, few);
    // Each second key is 9: a question between them has eight brackets.
    const Keys in_turn{1, 9, 1, 9, 1, 9, 1, 9, 1, 9, 1, 9, 1, 9, 1, 9};
    compare_brackets(in_turn, {0, 0}, {0, 1, 5, 9, 10});
    std::size_t room[2] = {7, 7};
    expect(is(kuldebiq_find_many(keys.data(), keys.size(), hints.data(), hints.size(), few.data(),
                                 few.size(), room, 1),
              KULDEBIQ_TOO_LITTLE_ROOM, few.size()) &&
               room[0] == 7 && room[1] == 7,
           "room for one place");
    expect(gives(kuldebiq_find_many(nullptr, 0, nullptr, 0, nullptr, 0, nullptr, 0), 0),
           "the places of no questions");
    expect(is(kuldebiq_find_past_many(keys.data(), keys.size(), hints.data(), hints.size(), few.data(),
                                      few.size(), room, 1),
              KULDEBIQ_TOO_LITTLE_ROOM, few.size()) &&
               room[0] == 7 &&
               gives(kuldebiq_find_past_many32(nullptr, 0, nullptr, 0, nullptr, 0, nullptr, 0), 0),
           "room for one place past a question");
    expect(kuldebiq_find(nullptr, 0, nullptr, 0, 5) == 0 &&
               kuldebiq_find_past(nullptr, 0, nullptr, 0, UINT64_MAX) == 0,
           "a place among no keys");
    expect(hints_of({}, EPSILON).size() >= 6, "hints of no keys");
}

void compare_positions(kuldebiq_index &index, const Keys &keys, const Keys &questions) {
    // Room for three more, which stays as it is.
    std::vector<std::uint32_t> positions(questions.size() + 3, 7);
    expect(gives(kuldebiq_positions(&index, questions.data(), questions.size(), positions.data(),
                                    positions.size()),
                 questions.size()),
           "how many positions");
    for (std::size_t i = 0; i < questions.size(); i++) {
        const std::uint64_t want = below(keys, questions[i]);
        expect(positions[i] == want, "one of many positions");
        expect(gives(kuldebiq_position(&index, questions[i]), want), "a position");
        const auto after = std::upper_bound(keys.begin(), keys.end(), questions[i]);
        expect(gives(kuldebiq_position_after(&index, questions[i]),
                     std::uint64_t(after - keys.begin())),
               "how many keys are at most a question");
    }
    expect(std::count(positions.end() - 3, positions.end(), 7U) == 3, "what lies behind positions");
    for (std::size_t i = 0; i < keys.size(); i++) {
        expect(gives(kuldebiq_key_at(&index, i), keys[i]), "a key");
    }
    expect(is(kuldebiq_key_at(&index, keys.size()), KULDEBIQ_NO_SUCH_PLACE, keys.size()),
           "a key past the last one");
}

// Two threads, each with a handle of its own to the same index.
void compare_in_threads(kuldebiq_index &index, const Keys &keys, const Keys &questions) {
    kuldebiq_index other = KULDEBIQ_NOTHING;
    expect(gives(kuldebiq_index_share(&index, &other), 0), "share");
    std::thread thread([&] {
        for (const std::uint64_t question : questions) {
            expect(gives(kuldebiq_position(&other, question), below(keys, question)),
                   "a position in another thread");
        }
        kuldebiq_index_free(&other);
    });
    for (const std::uint64_t question : questions) {
        expect(gives(kuldebiq_position(&index, question), below(keys, question)),
               "a position beside another thread");
    }
    thread.join();
}

// The points of level 0, as the header says.
std::vector<std::pair<std::uint64_t, std::uint64_t>> points_of(const Keys &keys) {
    std::vector<std::pair<std::uint64_t, std::uint64_t>> points;
    for (std::size_t from = 0, to = 0; from < keys.size(); from = to) {
        while (to < keys.size() && keys[to] == keys[from]) to++;
        points.emplace_back(keys[from], from);
        const std::uint64_t next = keys[from] + 1;
        if (to - from > 1 && next != 0 && (to == keys.size() || keys[to] != next)) {
            points.emplace_back(next, to);
        }
    }
    return points;
}

// Each point is within the bound of the line of its run.
void compare_lines(kuldebiq_index &index, const Keys &keys) {
    const auto points = points_of(keys);
    const std::uint64_t count = kuldebiq_index_segments(&index, 0).number;
    kuldebiq_segment one{}, next{};
    for (std::uint64_t i = 0; i < count; i++) {
        expect(gives(kuldebiq_index_segment(&index, 0, i, &one), 0), "a segment");
        std::size_t end = points.size();
        if (i + 1 < count) {
            expect(gives(kuldebiq_index_segment(&index, 0, i + 1, &next), 0), "the next one");
            end = next.start;
        }
        expect((one.side == 0) == (i + 1 == count), "which segment has no witness");
        // The line is that of a and b, x0 the x of a.
        const std::uint64_t bound_at = one.a == one.b ? 0 : EPSILON;
        expect(one.x0 == points[one.a].first &&
                   __int128(one.y0) == __int128(points[one.a].second) - __int128(bound_at),
               "where a line begins");
        expect(one.a == one.b || (one.run == points[one.b].first - one.x0 &&
                                  one.rise == points[one.b].second + 2 * bound_at -
                                                  points[one.a].second),
               "where a line leads");
        for (std::size_t j = one.start; j < end; j++) {
            const __int128 off = (__int128(one.y0) - __int128(points[j].second)) * one.run +
                                 (__int128(points[j].first) - __int128(one.x0)) * one.rise;
            const __int128 bound = __int128(EPSILON) * one.run;
            expect(-bound <= off && off <= bound, "a line");
        }
    }
    expect(is(kuldebiq_index_segment(&index, 0, count, &one), KULDEBIQ_NO_SUCH_SEGMENT, count),
           "a segment past the last one");
}

// What is refused, with its number, and that the index stands then.
void compare_refusals(kuldebiq_index &index, const Keys &keys) {
    const Keys falling{1, 4, 4, 3, 2};
    std::uint32_t room[2];
    kuldebiq_index none = KULDEBIQ_NOTHING;
    const auto build = [&](std::uint32_t epsilon, std::uint32_t above) {
        return kuldebiq_index_build(&index, falling.data(), falling.size(), epsilon, above);
    };
    expect(is(build(EPSILON, EPSILON_ABOVE), KULDEBIQ_UNSORTED, 3), "where keys fall");
    expect(is(build(1048577, 0), KULDEBIQ_EPSILON_TOO_GREAT, 1048577), "a great bound");
    expect(is(build(1048577, 1048578), KULDEBIQ_EPSILON_TOO_GREAT, 1048578), "the greater bound");
    // Too many keys, of which none is read nor copied: so the system need not find them.
    const std::size_t many = std::size_t(1) << 32;
    void *const nowhere = mmap(nullptr, many * sizeof(std::uint64_t), PROT_READ,
                               MAP_PRIVATE | MAP_ANONYMOUS | MAP_NORESERVE, -1, 0);
    if (nowhere != MAP_FAILED) {
        const auto *const zeros = static_cast<const std::uint64_t *>(nowhere);
        expect(is(kuldebiq_index_build(&index, zeros, many, EPSILON, 0), KULDEBIQ_TOO_MANY_KEYS, many),
               "too many keys");
        munmap(nowhere, many * sizeof(std::uint64_t));
    }
    kuldebiq_hints no_hints = KULDEBIQ_NOTHING;
    std::uint64_t numbers[6];
    expect(is(kuldebiq_hints_write(&no_hints, numbers, 6), KULDEBIQ_NOTHING_HELD, 0), "no hints");
    expect(is(kuldebiq_positions(&index, keys.data(), 3, room, 2), KULDEBIQ_TOO_LITTLE_ROOM, 3),
           "room for too few");
    expect(is(kuldebiq_positions(&none, keys.data(), 3, room, 2), KULDEBIQ_NOTHING_HELD, 0),
           "nothing to ask, before the room");
    expect(is(kuldebiq_position(&none, 5), KULDEBIQ_NOTHING_HELD, 0), "nothing held");
    expect(is(kuldebiq_index_share(&none, &index), KULDEBIQ_NOTHING_HELD, 0), "nothing to share");
    kuldebiq_index_free(&none);
    const std::uint64_t levels = kuldebiq_index_levels(&index).number;
    expect(is(kuldebiq_index_segments(&index, std::uint32_t(levels)), KULDEBIQ_NO_SUCH_LEVEL, levels),
           "a level past the last one");
    expect(gives(kuldebiq_index_segments(&index, std::uint32_t(levels - 1)), 1), "the last level");
    expect(gives(kuldebiq_index_keys(&index), keys.size()), "that the index stands");
}

void compare_index(std::mt19937_64 &random, std::size_t count) {
    const Keys keys = random_keys(random, count);
    kuldebiq_index index = KULDEBIQ_NOTHING;
    expect(gives(kuldebiq_index_build(&index, keys.data(), keys.size(), EPSILON, EPSILON_ABOVE),
                 keys.size()),
           "build");
    const Keys questions = random_questions(random, keys);
    compare_finding(random, keys, questions);
    compare_positions(index, keys, questions);
    compare_in_threads(index, keys, questions);
    compare_lines(index, keys);
    compare_refusals(index, keys);
    expect(gives(kuldebiq_positions(&index, nullptr, 0, nullptr, 0), 0), "no questions");
    expect(gives(kuldebiq_index_build(&index, nullptr, 0, EPSILON, EPSILON_ABOVE), 0), "no keys");
    expect(gives(kuldebiq_position(&index, 5), 0), "a position among no keys");
    expect(gives(kuldebiq_position_after(&index, UINT64_MAX), 0), "and how many there are");
    expect(is(kuldebiq_key_at(&index, 0), KULDEBIQ_NO_SUCH_PLACE, 0), "a key of none");
    kuldebiq_index_free(&index);
    kuldebiq_index_free(&index);
}

using Wanted = std::map<std::uint64_t, std::uint64_t>;

// One update of each kind, by a number.
std::uint64_t update(kuldebiq_map &map, Wanted &wanted, std::uint64_t number, std::uint64_t key) {
    if (number % 1000 == 0) {
        const auto from = wanted.lower_bound(key), to = wanted.upper_bound(key + 100);
        const auto count = std::uint64_t(std::distance(from, to));
        wanted.erase(from, to);
        expect(gives(kuldebiq_map_sweep(&map, key, key + 100), count), "a sweep");
        return count;
    }
    if (number % 3 == 0) {
        const std::uint64_t was_there = wanted.erase(key);
        expect(gives(kuldebiq_map_del(&map, key), was_there), "a deletion");
    } else {
        wanted[key] = number;
        expect(gives(kuldebiq_map_put(&map, key, number), 0), "a put");
    }
    return 1;
}

void ask(kuldebiq_map &map, const Wanted &wanted, std::uint64_t key) {
    const auto at = wanted.find(key);
    const kuldebiq_answer got = kuldebiq_map_get(&map, key);
    expect(at == wanted.end() ? is(got, KULDEBIQ_ABSENT, 0) : gives(got, at->second), "a value");
    const auto after = wanted.lower_bound(key);
    kuldebiq_pair pair{7, 7};
    const kuldebiq_answer next = kuldebiq_map_next(&map, key, &pair);
    if (after == wanted.end()) {
        expect(is(next, KULDEBIQ_ABSENT, 0) && pair.key == 7 && pair.value == 7, "no next key");
    } else {
        expect(gives(next, 0) && pair.key == after->first && pair.value == after->second,
               "the next key");
    }
    kuldebiq_pair last{7, 7};
    const auto past = wanted.upper_bound(key);
    const kuldebiq_answer previous = kuldebiq_map_previous(&map, key, &last);
    if (past == wanted.begin()) {
        expect(is(previous, KULDEBIQ_ABSENT, 0) && last.key == 7 && last.value == 7, "no previous key");
    } else {
        const auto before = std::prev(past);
        expect(gives(previous, 0) && last.key == before->first && last.value == before->second,
               "the previous key");
    }
}

// The values at many keys, in rooms for three more, which stay as they are.
void compare_values(kuldebiq_map &map, const Wanted &wanted, const Keys &keys) {
    Keys values(keys.size() + 3, 7);
    std::vector<std::uint8_t> present(keys.size() + 3, 9);
    const auto stays = [](const auto &room, std::size_t from, unsigned what) {
        return std::all_of(room.begin() + std::ptrdiff_t(from), room.end(),
                           [&](auto number) { return number == what; });
    };
    const auto untouched = [&](std::size_t from) {
        return stays(values, from, 7) && stays(present, from, 9);
    };
    const std::size_t little = keys.size() - 1, enough = values.size();
    expect(is(kuldebiq_map_get_many(&map, keys.data(), keys.size(), values.data(), little,
                                    present.data(), enough),
              KULDEBIQ_TOO_LITTLE_ROOM, keys.size()) &&
               is(kuldebiq_map_get_many(&map, keys.data(), keys.size(), values.data(), enough,
                                        present.data(), little),
                  KULDEBIQ_TOO_LITTLE_ROOM, keys.size()) &&
               untouched(0),
           "room for too few values");
    expect(gives(kuldebiq_map_get_many(&map, keys.data(), keys.size(), values.data(), enough,
                                       present.data(), enough),
                 keys.size()) &&
               untouched(keys.size()),
           "how many values");
    for (std::size_t i = 0; i < keys.size(); i++) {
        const auto at = wanted.find(keys[i]);
        expect(at == wanted.end() ? present[i] == 0 && values[i] == 0
                                  : present[i] == 1 && values[i] == at->second,
               "one of many values");
    }
}

// Whether an answer with a pair is that of an end of a map: the pair there, or that there is none.
bool ends(const kuldebiq_answer &answer, const kuldebiq_pair &pair, const Wanted &wanted, bool least) {
    if (wanted.empty()) {
        return is(answer, KULDEBIQ_ABSENT, 0) && pair.key == 7 && pair.value == 7;
    }
    const auto at = least ? wanted.begin() : std::prev(wanted.end());
    return gives(answer, 0) && pair.key == at->first && pair.value == at->second;
}

// Asks for both ends, and whether a key is there.
void ask_ends(kuldebiq_map &map, const Wanted &wanted, std::uint64_t key) {
    kuldebiq_pair first{7, 7}, last{7, 7};
    expect(ends(kuldebiq_map_first(&map, &first), first, wanted, true), "the least key");
    expect(ends(kuldebiq_map_last(&map, &last), last, wanted, false), "the greatest key");
    expect(gives(kuldebiq_map_contains(&map, key), wanted.count(key)), "whether a key is there");
    expect(gives(kuldebiq_map_is_empty(&map), wanted.empty() ? 1 : 0), "whether any key is there");
}

// Takes the least key and the greatest in turn until none is left.
void take_all(kuldebiq_map &map, Wanted wanted) {
    for (bool least = true;; least = !least) {
        kuldebiq_pair pair{7, 7};
        const kuldebiq_answer taken =
            least ? kuldebiq_map_pop_first(&map, &pair) : kuldebiq_map_pop_last(&map, &pair);
        expect(ends(taken, pair, wanted, least), least ? "a least key taken" : "a greatest key taken");
        if (wanted.empty()) break;
        wanted.erase(least ? wanted.begin() : std::prev(wanted.end()));
    }
    expect(gives(kuldebiq_map_is_empty(&map), 1), "that all keys were taken");
}

// The first pairs of a range, as many as there is room for.
void compare_range(kuldebiq_map &map, const Wanted &wanted, std::uint64_t low, std::uint64_t high,
                   std::size_t room) {
    std::vector<kuldebiq_pair> pairs(room + 1, kuldebiq_pair{7, 7});
    std::size_t count = 0;
    const kuldebiq_answer found = kuldebiq_map_range(&map, low, high, pairs.data(), room);
    for (auto at = wanted.lower_bound(low); at != wanted.end() && at->first <= high && count < room;
         ++at, count++) {
        expect(pairs[count].key == at->first && pairs[count].value == at->second, "a pair of a range");
    }
    expect(gives(found, count), "how many pairs a range has");
    for (; count <= room; count++) {
        expect(pairs[count].key == 7 && pairs[count].value == 7, "what lies behind the pairs");
    }
}

// The map made at once of the pairs of another, and the other one made anew.
void compare_loaded(kuldebiq_map &map, const Wanted &wanted) {
    std::vector<kuldebiq_pair> pairs;
    for (const auto &want : wanted) pairs.push_back({want.first, want.second});
    kuldebiq_map loaded = KULDEBIQ_NOTHING;
    expect(is(kuldebiq_map_compact(&loaded, 16), KULDEBIQ_NOTHING_HELD, 0), "no map to compact");
    expect(is(kuldebiq_map_load(&loaded, 0, pairs.data(), pairs.size()), KULDEBIQ_LEVELS_OUT_OF_RANGE, 0),
           "no levels");
    expect(gives(kuldebiq_map_load(&loaded, 16, pairs.data(), pairs.size()), wanted.size()), "a load");
    compare_range(loaded, wanted, 0, UINT64_MAX, wanted.size() + 1);
    expect(gives(kuldebiq_map_accepted(&loaded), wanted.size()), "how many a load is");
    expect(is(kuldebiq_map_load(&loaded, 1, pairs.data(), 128), KULDEBIQ_FULL, 127), "a load of too many");
    std::swap(pairs[3], pairs[5]);
    expect(is(kuldebiq_map_load(&loaded, 16, pairs.data(), pairs.size()), KULDEBIQ_UNSORTED, 4),
           "a load of pairs that fall");
    pairs[1] = pairs[0];
    expect(is(kuldebiq_map_load(&loaded, 1, pairs.data(), pairs.size()), KULDEBIQ_UNSORTED, 1),
           "a load of one key twice");
    expect(gives(kuldebiq_map_count(&loaded, 0, UINT64_MAX), wanted.size()), "that the map stands");
    expect(is(kuldebiq_map_compact(&map, 27), KULDEBIQ_LEVELS_OUT_OF_RANGE, 27) &&
               is(kuldebiq_map_compact(&map, 1), KULDEBIQ_FULL, 127),
           "a map that isn't compacted");
    compare_range(map, wanted, 0, UINT64_MAX, wanted.size() + 1);
    expect(gives(kuldebiq_map_compact(&map, 17), wanted.size()), "a compacted map");
    expect(gives(kuldebiq_map_accepted(&map), wanted.size()) &&
               gives(kuldebiq_map_capacity(&map), 64 * 131072 - 1),
           "what it has accepted and can");
    compare_range(map, wanted, 0, UINT64_MAX, wanted.size() + 1);
    expect(gives(kuldebiq_map_load(&loaded, 2, nullptr, 0), 0) &&
               gives(kuldebiq_map_count(&loaded, 0, UINT64_MAX), 0),
           "a load of nothing");
    kuldebiq_map_free(&loaded);
}

void compare_map(std::mt19937_64 &random, std::size_t count) {
    kuldebiq_map map = KULDEBIQ_NOTHING, none = KULDEBIQ_NOTHING;
    expect(is(kuldebiq_map_new(&map, 27), KULDEBIQ_LEVELS_OUT_OF_RANGE, 27), "too many levels");
    expect(is(kuldebiq_map_put(&map, 1, 1), KULDEBIQ_NOTHING_HELD, 0), "no map");
    expect(gives(kuldebiq_map_new(&map, 16), 64 * 65536 - 1), "new");
    Wanted wanted;
    std::uint64_t accepted = 0;
    const std::uint64_t top = count / 3 + 1;
    for (std::uint64_t number = 0; number < count; number++) {
        accepted += update(map, wanted, number, random() % top);
        ask(map, wanted, random() % top);
        ask_ends(map, wanted, random() % top);
    }
    expect(gives(kuldebiq_map_accepted(&map), accepted), "how many were accepted");
    expect(gives(kuldebiq_map_count(&map, 0, UINT64_MAX), wanted.size()), "how many keys");
    std::uint64_t from = 0;
    kuldebiq_pair pair{};
    for (const auto &want : wanted) {
        expect(gives(kuldebiq_map_next(&map, from, &pair), 0) && pair.key == want.first &&
                   pair.value == want.second,
               "a walk");
        from = pair.key + 1;
    }
    expect(is(kuldebiq_map_range(&none, 0, 9, &pair, 1), KULDEBIQ_NOTHING_HELD, 0) &&
               is(kuldebiq_map_previous(&none, 9, &pair), KULDEBIQ_NOTHING_HELD, 0) &&
               is(kuldebiq_map_first(&none, &pair), KULDEBIQ_NOTHING_HELD, 0) &&
               is(kuldebiq_map_last(&none, &pair), KULDEBIQ_NOTHING_HELD, 0) &&
               is(kuldebiq_map_pop_first(&none, &pair), KULDEBIQ_NOTHING_HELD, 0) &&
               is(kuldebiq_map_pop_last(&none, &pair), KULDEBIQ_NOTHING_HELD, 0) &&
               is(kuldebiq_map_contains(&none, 9), KULDEBIQ_NOTHING_HELD, 0) &&
               is(kuldebiq_map_is_empty(&none), KULDEBIQ_NOTHING_HELD, 0),
           "no map to go through");
    Keys keys{UINT64_MAX};
    for (std::uint64_t i = 0; i < 1000; i++) keys.push_back(random() % top);
    compare_values(map, wanted, keys);
    expect(is(kuldebiq_map_get_many(&none, keys.data(), 1, nullptr, 0, nullptr, 0),
              KULDEBIQ_NOTHING_HELD, 0) &&
               gives(kuldebiq_map_get_many(&map, nullptr, 0, nullptr, 0, nullptr, 0), 0),
           "values of no map, and at no keys");
    for (std::size_t room = 0; room < 300; room += 1 + room / 8) {
        const std::uint64_t low = random() % top;
        compare_range(map, wanted, low, low + random() % top, room);
        compare_range(map, wanted, low, UINT64_MAX, room);
    }
    compare_range(map, wanted, 9, 8, 5);
    compare_loaded(map, wanted);
    take_all(map, wanted);
    kuldebiq_map_free(&map);
}

// Many updates at once, beside the same ones one by one.
void compare_applied(std::mt19937_64 &random, std::size_t count) {
    kuldebiq_map map = KULDEBIQ_NOTHING, other = KULDEBIQ_NOTHING;
    expect(is(kuldebiq_map_apply(&map, nullptr, 0), KULDEBIQ_NOTHING_HELD, 0), "no map to update");
    expect(gives(kuldebiq_map_new(&map, 16), 64 * 65536 - 1), "new");
    expect(gives(kuldebiq_map_new(&other, 16), 64 * 65536 - 1), "new");
    expect(gives(kuldebiq_map_apply(&map, nullptr, 0), 0), "no updates");
    std::vector<kuldebiq_update> updates;
    Wanted wanted;
    const std::uint64_t top = count / 3 + 1;
    for (std::uint64_t number = 0; number < count; number++) {
        const std::uint64_t key = random() % top;
        update(other, wanted, number, key);
        if (number % 1000 == 0) {
            updates.push_back({KULDEBIQ_SWEEP, key, key + 100});
        } else {
            updates.push_back({std::uint32_t(number % 3 == 0 ? KULDEBIQ_DEL : KULDEBIQ_PUT), key, number});
        }
    }
    updates.push_back({3, 0, 0});
    expect(is(kuldebiq_map_apply(&map, updates.data(), updates.size()), KULDEBIQ_NO_SUCH_KIND, count),
           "what is no update");
    expect(gives(kuldebiq_map_accepted(&map), 0), "that the map stands");
    expect(gives(kuldebiq_map_apply(&map, updates.data(), count), count), "many updates");
    std::uint64_t from = 0;
    kuldebiq_pair pair{};
    for (const auto &want : wanted) {
        expect(gives(kuldebiq_map_next(&map, from, &pair), 0) && pair.key == want.first &&
                   pair.value == want.second,
               "a walk after many updates");
        from = pair.key + 1;
    }
    expect(is(kuldebiq_map_next(&map, from, &pair), KULDEBIQ_ABSENT, 0), "its end");
    expect(kuldebiq_map_accepted(&map).number == kuldebiq_map_accepted(&other).number,
           "how many many updates are");
    kuldebiq_map_free(&map);
    kuldebiq_map_free(&other);
}

// A map of one level accepts 127 entries, and stands where it is full.
void compare_full() {
    kuldebiq_map map = KULDEBIQ_NOTHING;
    expect(gives(kuldebiq_map_new(&map, 1), 127), "a small map");
    for (std::uint64_t key = 0; key < 126; key++) {
        expect(gives(kuldebiq_map_put(&map, key, key), 0), "a put in a small map");
    }
    expect(is(kuldebiq_map_sweep(&map, 3, 4), KULDEBIQ_FULL, 126), "no room for a sweep");
    const kuldebiq_update two[] = {{KULDEBIQ_DEL, 1, 0}, {KULDEBIQ_PUT, 200, 1}};
    expect(is(kuldebiq_map_apply(&map, two, 2), KULDEBIQ_FULL, 126), "no room for two updates");
    expect(gives(kuldebiq_map_get(&map, 1), 1), "that neither was taken");
    expect(gives(kuldebiq_map_del(&map, 3), 1), "the last entry");
    expect(is(kuldebiq_map_put(&map, 3, 3), KULDEBIQ_FULL, 127), "no room for a put");
    expect(gives(kuldebiq_map_count(&map, 0, 200), 125), "that the map stands");
    kuldebiq_map_free(&map);
}

} // namespace

int main(int words, char **word) {
    const std::size_t count = words > 1 ? std::strtoull(word[1], nullptr, 10) : 1000000;
    std::mt19937_64 random(20260801);
    compare_index(random, count);
    compare_map(random, count);
    compare_applied(random, count);
    compare_full();
    const std::uint32_t version = kuldebiq_version();
    const std::string text = std::to_string(version / 1000000) + '.' +
                             std::to_string(version / 1000 % 1000) + '.' +
                             std::to_string(version % 1000);
    expect(version == KULDEBIQ_VERSION && text == KULDEBIQ_VERSION_TEXT, "the version");
    std::cout << "no difference\n";
    return 0;
}
