/* The classes of slotmap.hpp: each call once, and random calls of a slot_map of strings beside std::map. */
#include "check.h"
#include "slotmap.hpp"

#include <map>
#include <memory>
#include <string>
#include <type_traits>
#include <vector>

using slotmaps::key;

static_assert(std::is_nothrow_move_constructible<slotmaps::slot_map<std::string>>::value, "");
static_assert(std::is_nothrow_move_constructible<slotmaps::word_map<int>>::value, "");

static void check_words()
{
    slotmaps::word_map<const char *> map;
    CHECK(map.empty() && map.capacity() == 0 && !map.contains(key{}) && map.begin() == map.end());
    key a = map.insert("river"), b = map.insert("hill");
    CHECK(map.size() == 2 && a != b && map.get(a) == std::string("river") && a.index() == 1 && bool(a) && !key{});
    auto copy = map;
    CHECK(*map.set(a, "lake") == std::string("river") && *copy.get(a) == std::string("river"));
    CHECK(*map.erase(b) == std::string("hill") && !map.erase(b) && copy.contains(b));
    CHECK(*map.detach(a) == std::string("lake") && !map.detach(a) && map.reattach(a, "sea") && !map.reattach(a, "sea"));
    auto moved = std::move(map);
    CHECK(map.empty() && moved.size() == 1);
    map = copy;
    std::size_t count = 0;
    for (auto [at, value] : map)
        CHECK(copy.get(at) == value && ++count);
    CHECK(count == 2);
    map.reserve(100);
    CHECK(map.capacity() >= 100);
    map.clear();
    CHECK(map.empty() && copy.size() == 2);
#if defined(__cpp_exceptions)
    bool thrown = false;
    try {
        map.reserve(std::size_t{1} << 33);
    } catch (const std::length_error &) {
        thrown = true;
    }
    CHECK(thrown);
#endif
}

static void check_side()
{
    slotmaps::word_map<int> map;
    slotmaps::side_table<double> side;
    std::optional<std::pair<key, double>> stood;
    key a = map.insert(1);
    CHECK(!side.contains(a) && side.put(a, 0.5, &stood) && !stood && side.put(a, 1.5, &stood) && stood == std::make_pair(a, 0.5));
    map.erase(a);
    key c = map.insert(2);
    CHECK(side.contains(a) && side.put(c, 2.5, &stood) && stood == std::make_pair(a, 1.5));
    CHECK(!side.put(a, 3.5) && !side.put(key{SLOTMAP_NULL}, 3.5) && side.get(c) == 2.5 && side.size() == 1);
    key b = map.insert(3);
    CHECK(side.put(b, 4.5));
    auto pairs = side.pairs();
    CHECK(pairs.size() == 2 && pairs[0] == std::make_pair(c, 2.5) && pairs[1] == std::make_pair(b, 4.5));
    auto copy = side;
    CHECK(side.erase(c) == 2.5 && !side.erase(c) && copy.contains(c));
    side.reserve(100);
    side.clear();
    CHECK(side.empty() && copy.size() == 2);
}

/* Numbers that no insert returned find nothing, and change nothing: even versions, index 0 and the null key. */
static void check_no_keys()
{
    slotmaps::word_map<int> map;
    slotmaps::side_table<int> side;
    slotmaps::slot_map<int> values;
    key a = map.insert(1), b = map.insert(2);
    CHECK(side.put(a, 3) && values.insert(4) == a && values.insert(5) == b && map.detach(b) == 2 && values.detach(b) == 5);
    const std::uint64_t version = std::uint64_t{1} << 32;
    for (std::uint64_t id : {a.id - version, a.id + version, b.id - version, b.id + version, version, SLOTMAP_START, SLOTMAP_NULL, UINT64_MAX}) {
        key at{id};
        CHECK(!map.contains(at) && !map.get(at) && !map.set(at, 7) && !map.erase(at) && !map.detach(at) && !map.reattach(at, 7));
        CHECK(!side.contains(at) && !side.get(at) && !side.erase(at) && !side.put(at, 7));
        CHECK(!values.find(at) && !values.erase(at) && !values.detach(at) && !values.reattach(at, 7));
    }
    CHECK(map.get(a) == 1 && side.get(a) == 3 && values.at(a) == 4 && map.size() + side.size() + values.size() == 3);
}

static void check_iterators()
{
    using map_of_words = slotmaps::word_map<int>;
    using map_of_strings = slotmaps::slot_map<std::string>;
    static_assert(std::is_convertible<map_of_strings::iterator, map_of_strings::const_iterator>::value, "");
    static_assert(!std::is_convertible<map_of_strings::const_iterator, map_of_strings::iterator>::value, "");
    map_of_strings map;
    CHECK(map_of_strings::iterator() == map_of_strings::iterator() && map_of_words::iterator() == map_of_words().begin());
    CHECK(map.capacity() == 0 && map.begin() == map.end());
    map.reserve(100);
    CHECK(map.capacity() >= 100);
    key a = map.insert("river");
    map_of_strings::const_iterator at = map.begin();
    CHECK((*at).first == a && at == map.begin() && map.begin() == at && at != map.end() && ++at == map.cend() && map.cbegin() != at);
    slotmaps::side_table<int> side;
    CHECK(side.capacity() == 0 && side.put(a, 1) && side.capacity() >= 1);
    side.reserve(100);
    CHECK(side.capacity() >= 100);
}

#if defined(__cpp_exceptions)
/* A value that throws at a chosen time as it is made. */
struct frail {
    static int left;
    int number;
    explicit frail(int it) : number(it)
    {
        if (left-- == 0)
            throw it;
    }
};
int frail::left = -1;

static void check_throwing()
{
    slotmaps::slot_map<frail> map;
    key a = map.emplace(1);
    frail::left = 0;
    bool thrown = false;
    try {
        map.emplace(2);
    } catch (int) {
        thrown = true;
    }
    CHECK(thrown && map.size() == 1 && map.at(a).number == 1);
    key b = map.emplace(3);
    CHECK(map.size() == 2 && map.at(b).number == 3 && b.index() == 2);
}

/* A value whose moves throw at a chosen time. It can be moved and copied, and not assigned. */
struct heavy {
    static bool throws;
    const int number;
    explicit heavy(int it) : number(it) {}
    heavy(const heavy &) = default;
    heavy(heavy &&other) : number(other.number)
    {
        if (throws)
            throw number;
    }
};
bool heavy::throws = false;

template <class Call> static bool throws_int(Call call)
{
    heavy::throws = true;
    bool thrown = false;
    try {
        call();
    } catch (int) {
        thrown = true;
    }
    heavy::throws = false;
    return thrown;
}

static void check_throwing_moves()
{
    slotmaps::slot_map<heavy> map;
    key a = map.emplace(1), b = map.emplace(2);
    CHECK(throws_int([&] { map.erase(a); }) && map.at(a).number == 1 && map.size() == 2);
    CHECK(throws_int([&] { map.detach(b); }) && map.at(b).number == 2 && map.size() == 2);
    CHECK(throws_int([&] { map.emplace(3); }) && map.size() == 2);
    key c = map.emplace(4);
    CHECK(c.index() != a.index() && c.index() != b.index() && !map.reattach(b, heavy(5)));
    CHECK(map.detach(b)->number == 2 && throws_int([&] { map.reattach(b, heavy(5)); }) && !map.contains(b) && map.size() == 2);
    CHECK(map.reattach(b, heavy(6)) && map.at(b).number == 6 && map.erase(a)->number == 1 && !map.erase(a) && map.size() == 2);
    auto copy = map;
    map.clear();
    CHECK(map.empty() && !map.contains(b) && copy.at(b).number == 6);
}
#endif

/* A value of the map itself as the argument, also where the vector of values grows. */
static void check_own_values()
{
    slotmaps::slot_map<std::string> map;
    const std::string text = "a text that is too long for the string itself";
    key first = map.insert(text);
    for (int i = 0; i < 40; i++) {
        key copied = map.insert(*map.find(first));
        key made = map.emplace(map.at(copied), std::size_t{2});
        CHECK(map.at(copied) == text && map.at(made) == "text that is too long for the string itself" && map.at(first) == text);
    }
    CHECK(map.detach(first) == text && map.reattach(first, map.begin() != map.end() ? (*map.begin()).second : text));
    key moved = map.insert(std::move(map.at(first)));
    CHECK(map.at(moved) == text && map.size() == 82);
}

static void check_owned()
{
    slotmaps::slot_map<std::unique_ptr<int>> map;
    key a = map.insert(std::make_unique<int>(5)), b = map.emplace(new int(6));
    CHECK(**map.find(a) == 5 && **map.erase(b) == 6 && map.find(b) == nullptr);
    auto moved = std::move(map);
    CHECK(map.empty() && map.find(a) == nullptr && moved.size() == 1 && *moved.at(a) == 5);
    key c = map.emplace(new int(7));
    CHECK(map.size() == 1 && *map.at(c) == 7);
    map = std::move(moved);
    CHECK(map.size() == 1 && *map.at(a) == 5);
}

static std::uint64_t state = 7;

static std::size_t below(std::size_t bound)
{
    state = state * 6364136223846793005u + 1442695040888963407u;
    return static_cast<std::size_t>(state >> 33) % bound;
}

static void compare(const slotmaps::slot_map<std::string> &map, const std::map<std::uint64_t, std::string> &live)
{
    std::uint32_t last = 0;
    std::size_t count = 0;
    for (auto [at, value] : map) {
        CHECK(live.at(at.id) == value && last < at.index());
        last = at.index();
        count++;
    }
    CHECK(count == live.size() && map.size() == count);
}

static void check_strings()
{
    slotmaps::slot_map<std::string> map;
    std::map<std::uint64_t, std::string> live, detached;
    std::vector<key> known{key{}};
    for (int turn = 0; turn < 100000; turn++) {
        std::string text = "a text that is too long for the string itself " + std::to_string(turn);
        key some = known[known.size() - 1 - below(known.size() < 60 ? known.size() : 60)];
        std::size_t what = below(10);
        if (what < 4 && live.size() < 40) {
            key made = map.insert(text);
            CHECK(made && live.count(made.id) + detached.count(made.id) == 0);
            known.push_back(made);
            live[made.id] = text;
        } else if (what < 5) {
            CHECK(map.erase(some).has_value() == (live.erase(some.id) == 1));
        } else if (what < 6) {
            CHECK(map.detach(some).has_value() == (live.count(some.id) == 1));
            if (live.erase(some.id) == 1)
                detached[some.id] = text;
        } else if (what < 7) {
            bool was_detached = detached.erase(some.id) == 1;
            CHECK(map.reattach(some, text) == was_detached);
            if (was_detached)
                live[some.id] = text;
        } else if (what < 8 && below(100) == 0) {
            compare(map, live);
            auto copy = map;
            compare(copy, live);
            CHECK(copy.insert(text) == map.insert(text));
            map = copy;
            for (auto [at, value] : map)
                if (live.emplace(at.id, value).second)
                    known.push_back(at);
        } else {
            std::string *found = map.find(some);
            CHECK((found != nullptr) == (live.count(some.id) == 1) && (found == nullptr || *found == live[some.id]));
        }
    }
    compare(map, live);
    map.reserve(100);
    map.clear();
    CHECK(map.empty() && map.begin() == map.end() && std::hash<key>()(key{5}) == std::hash<std::uint64_t>()(5));
}

int main()
{
    check_words();
    check_side();
    check_no_keys();
    check_iterators();
#if defined(__cpp_exceptions)
    check_throwing();
    check_throwing_moves();
#endif
    check_own_values();
    check_owned();
    check_strings();
    std::printf("classes: %llu checks\n", checks);
}
