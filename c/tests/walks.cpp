/* Where a walk begins. Who erases the first value until none is left pays for one walk, however many slots are vacant before it; an
 * erasure by key looks for no other value; and the first value is found after every call that changes a map. */
#include "check.h"
#include "slotmap.hpp"

#include <ctime>
#include <memory>
#include <string>
#include <vector>

using slotmaps::key;

enum { MANY = 200000 };

/* Some of what follows took half a minute each, when a walk began at the first slot. */
template <class Call> static void check_soon(Call call)
{
    std::clock_t start = std::clock();
    call();
    CHECK(std::clock() - start < 5 * CLOCKS_PER_SEC);
}

template <class Map> static std::vector<key> filled(Map &map, int count)
{
    std::vector<key> keys;
    for (int i = 0; i < count; i++)
        keys.push_back(map.insert(i));
    return keys;
}

/* Until the map is empty, by an iterator and by a key. */
static void check_first_of_many()
{
    check_soon([] {
        slotmaps::slot_map<int> map;
        auto keys = filled(map, MANY);
        int next = 0;
        while (!map.empty()) {
            CHECK(map.begin()->second == next++);
            map.erase(map.begin());
        }
        CHECK(next == MANY && map.begin() == map.end() && !map.contains(keys[0]));
    });
    check_soon([] {
        slotmaps::slot_map<int> map;
        auto keys = filled(map, MANY);
        /* Backwards, so that the first half is vacant when the walk begins. */
        for (std::size_t at = MANY / 2; at-- > 0;)
            map.erase(keys[at]);
        for (std::size_t at = MANY / 2; !map.empty(); at++) {
            key first = std::as_const(map).begin()->first;
            CHECK(first == keys[at] && map.erase(first).has_value());
        }
    });
}

static void check_first_beside()
{
    check_soon([] {
        slotmaps::slot_map<int> map;
        slotmaps::side_map<int> side;
        for (key at : filled(map, MANY))
            CHECK(side.put(at, static_cast<int>(at.index())));
        for (int next = 1; !side.empty(); next++) {
            CHECK(side.begin()->second == next);
            side.erase(side.begin());
        }
    });
    check_soon([] {
        slotmaps::word_map<int> map;
        filled(map, MANY);
        for (int next = 0; !map.empty(); next++)
            CHECK(map.erase((*map.begin()).first) == next);
        CHECK(map.begin() == map.end());
    });
}

/* One value stays at the end. One before it comes and goes, by a key and by an iterator: no erasure looks for the other. */
static void check_one_that_stays()
{
    check_soon([] {
        slotmaps::slot_map<int> map;
        auto keys = filled(map, MANY);
        for (std::size_t at = MANY - 1; at-- > 0;)
            map.erase(keys[at]);
        for (int turn = 0; turn < MANY; turn++)
            CHECK(map.erase(map.insert(turn)) == turn);
        CHECK(map.size() == 1 && map.begin()->first == keys.back());
        /* And with none that stays. */
        map.erase(map.begin());
        for (int turn = 0; turn < MANY; turn++) {
            key one = map.insert(turn);
            CHECK(map.begin()->first == one && map.erase(map.begin()) == map.end());
        }
    });
}

/* The first is found after each kind of change that brings one before it. */
template <class Map> static void check_first_after(Map map)
{
    auto first = [&] { return (*map.begin()).first; };
    auto keys = filled(map, 10);
    for (std::size_t at = 0; at < 5; at++)
        map.erase(keys[at]);
    CHECK(first() == keys[5]);
    auto copy = map;
    CHECK((*copy.begin()).first == keys[5] && copy == map);
    key again = map.insert(1);
    CHECK(first() == again && again.index() == 5 && copy != map);
    map.detach(again);
    CHECK(first() == keys[5] && map.reattach(again, 2) && first() == again && map != copy);
    /* Assigned and swapped over one whose first is later, and the reverse. */
    std::swap(map, copy);
    CHECK(first() == keys[5] && (*copy.begin()).first == again);
    map = copy;
    CHECK(first() == again && map == copy);
    map = std::move(copy);
    CHECK(first() == again);
    for (std::size_t at = 5; at < 9; at++)
        map.erase(keys[at]);
    map.erase(again);
    CHECK(first() == keys[9] && map.size() == 1);
    map.clear();
    CHECK(map.begin() == map.end());
    CHECK(map.insert(3).index() == first().index());
    copy = Map();
    key only = copy.insert(4);
    CHECK(only.index() == 1 && (*copy.begin()).first == only);
    /* Where the array grows, also. */
    copy.erase(only);
    keys = filled(copy, 100);
    CHECK((*copy.begin()).first == keys[0] && keys[0].index() == 1);
    copy.erase(keys[0]);
    CHECK((*copy.begin()).first == keys[1]);
    filled(copy, 1000);
    CHECK((*copy.begin()).first.index() == 1);
}

static void check_first_of_side()
{
    slotmaps::slot_map<int> map;
    slotmaps::side_map<std::string> side, other;
    auto keys = filled(map, 100);
    CHECK(side.put(keys[99], "a") && side.begin()->second == "a" && side.put(keys[50], "b") && side.begin()->second == "b");
    CHECK(side.put(keys[50], "c") && side.begin()->second == "c" && side.erase(keys[50]) == "c" && side.begin()->second == "a");
    CHECK(other.put(keys[3], "d") && side.put(keys[7], "e") && side.begin()->second == "e");
    swap(side, other);
    CHECK(side.begin()->second == "d" && other.begin()->second == "e" && side.size() == 1 && side != other);
    side.clear();
    CHECK(side.begin() == side.end() && side.put(keys[9], "f") && side.begin()->second == "f");
}

/* A destructor that walks the map, erases its first value, or clears it. */
struct busy {
    using map_of_busy = slotmaps::slot_map<busy>;
    map_of_busy *in;
    int number, what;

    busy(map_of_busy *it, int of, int does) : in(it), number(of), what(does) {}
    busy(busy &&other) noexcept : in(std::exchange(other.in, nullptr)), number(other.number), what(other.what) {}
    ~busy()
    {
        if (in == nullptr)
            return;
        std::size_t count = 0;
        for (auto pair : *in)
            count += pair.second.in == in;
        CHECK(count == in->size());
        if (what == 1 && !in->empty())
            in->erase(in->begin());
        if (what == 2)
            in->clear();
        if (what == 3 && !in->empty())
            in->erase(in->begin()->first);
    }
};

static void check_busy_destructors()
{
    for (int what = 0; what < 4; what++)
        for (int how = 0; how < 4; how++) {
            busy::map_of_busy map;
            std::vector<key> keys;
            for (int i = 0; i < 40; i++)
                keys.push_back(map.emplace(&map, i, i % 3 == 0 ? what : 0));
            if (how == 0)
                while (!map.empty())
                    map.erase(map.begin());
            else if (how == 1)
                while (!map.empty())
                    map.erase(map.begin()->first);
            else if (how == 2) {
                std::size_t before = map.size(), gone = erase_if(map, [](auto &pair) { return pair.second.number % 2 == 0; });
                CHECK(gone == before - map.size() && gone >= (what == 0 ? 20 : 1));
            } else
                map.clear();
            CHECK(how == 2 || map.empty());
            key one = map.emplace(&map, 1, 0);
            CHECK(map.contains(one) && (map.size() > 1 || map.begin()->first == one));
        }
}

/* `matches` takes the pair in each of these ways, and may change the value. */
static void check_erase_if()
{
    slotmaps::slot_map<int> map;
    filled(map, 6);
    CHECK(erase_if(map, [](auto pair) { return pair.second == 0; }) == 1);
    CHECK(erase_if(map, [](auto &pair) { return pair.second == 1; }) == 1);
    CHECK(erase_if(map, [](const auto &pair) { return pair.second == 2; }) == 1);
    CHECK(erase_if(map, [](auto &&pair) { return pair.second == 3; }) == 1);
    CHECK(erase_if(map, [](std::pair<key, int &> &pair) { return ++pair.second == 5; }) == 1);
    CHECK(map.size() == 1 && map.begin()->second == 6);
}

static void check_equal()
{
    slotmaps::slot_map<std::string> a, b;
    CHECK(a == b && !(a != b));
    key first = a.insert("x"), second = a.insert("y");
    CHECK(a != b && b.insert("x") == first && b.insert("z") == second && a != b);
    b.at(second) = "y";
    CHECK(a == b && a.erase(first) && a != b && b.erase(first) && a == b);
    /* The same value under another key. */
    CHECK(a.insert("x").id != first.id && b.erase(second) && a != b);
    slotmaps::word_map<int> c, d;
    slotmaps::side_table<int> e, f;
    key word = c.insert(5);
    CHECK(c != d && d.insert(6) == word && c != d && d.set(word, 5) && c == d);
    CHECK(e == f && e.put(word, 1) && e != f && f.put(word, 2) && e != f && f.put(word, 1) && e == f);
}

struct players;
static void check_order()
{
    using typed = slotmaps::typed_key<players>;
    constexpr typed a{5}, b{6};
    static_assert(a == a && a != b && a < b && b > a && a <= a && a <= b && b >= a, "");
#if defined(__cpp_lib_three_way_comparison)
    static_assert(std::totally_ordered<typed> && std::three_way_comparable<typed, std::strong_ordering>, "");
    static_assert((a <=> b) < 0, "");
#endif
    CHECK(a < b && !(b < a));
}

int main()
{
    check_first_of_many();
    check_first_beside();
    check_one_that_stays();
    check_first_after(slotmaps::slot_map<int>());
    check_first_after(slotmaps::word_map<int>());
    check_first_of_side();
    check_busy_destructors();
    check_erase_if();
    check_equal();
    check_order();
    std::printf("walks: %llu checks\n", checks);
}
