/* What slot_map and side_map have beside the calls that classes.cpp makes: keys with tags, iterators that erase, moves of which the
 * n-th throws, destructors that call the map, and capacities. It runs without exceptions too. */
#include "check.h"
#include "slotmap.hpp"

#include <memory>
#include <string>
#include <type_traits>
#include <unordered_map>
#include <utility>
#include <vector>

using slotmaps::key;
using slotmaps::typed_key;

struct players;
struct enemies;

/* Whether a map takes a key of this type. */
template <class Map, class Key, class = void> struct takes : std::false_type {};
template <class Map, class Key>
struct takes<Map, Key, decltype(void(std::declval<Map &>().contains(std::declval<Key>())))> : std::true_type {};

static_assert(takes<slotmaps::slot_map<int, players>, typed_key<players>>::value, "");
static_assert(!takes<slotmaps::slot_map<int, players>, typed_key<enemies>>::value, "");
static_assert(!takes<slotmaps::slot_map<int, players>, key>::value && !takes<slotmaps::slot_map<int>, typed_key<players>>::value, "");
static_assert(!takes<slotmaps::side_map<int, players>, typed_key<enemies>>::value, "");
static_assert(!takes<slotmaps::word_map<int, players>, typed_key<enemies>>::value, "");
static_assert(!takes<slotmaps::side_table<int, players>, typed_key<enemies>>::value, "");
static_assert(!std::is_convertible<std::uint64_t, key>::value && sizeof(typed_key<players>) == 8, "");
static_assert(std::is_nothrow_move_constructible<slotmaps::side_map<std::string>>::value, "");
#if __cplusplus >= 202002L
static_assert(std::forward_iterator<slotmaps::slot_map<std::string>::iterator>, "");
static_assert(std::forward_iterator<slotmaps::slot_map<std::string>::const_iterator>, "");
#endif

static void check_tags()
{
    slotmaps::slot_map<std::string, players> names;
    slotmaps::side_map<std::string, players> teams;
    slotmaps::side_table<int, players> scores;
    slotmaps::word_map<int, enemies> strengths;
    typed_key<players> ada = names.insert("Ada");
    typed_key<enemies> wolf = strengths.insert(5);
    CHECK(teams.put(ada, "red") && scores.put(ada, 7) && teams.at(ada) == "red" && scores.get(ada) == 7 && strengths.get(wolf) == 5);
    CHECK(ada.id == wolf.id && ada.index() == 1 && ada.version() == 1);
    std::unordered_map<typed_key<players>, int> hashed{{ada, 3}};
    CHECK(hashed.at(ada) == 3);
}

static void check_erasing()
{
    slotmaps::slot_map<std::unique_ptr<int>> map;
    slotmaps::side_map<std::unique_ptr<int>> side;
    std::vector<key> keys;
    for (int i = 0; i < 100; i++) {
        keys.push_back(map.emplace(new int(i)));
        CHECK(side.put(keys.back(), std::make_unique<int>(-i)));
    }
    auto third = [](const auto &pair) { return *pair.second % 3 == 0; };
    CHECK(erase_if(map, third) == 34 && map.size() == 66 && erase_if(side, third) == 34 && side.size() == 66);
    int last = 0;
    for (auto at = map.begin(); at != map.end();) {
        CHECK(**&at->second > last && at->first == keys[static_cast<std::size_t>(*at->second)]);
        last = *at->second;
        at = last % 2 == 0 ? map.erase(at) : std::next(at);
    }
    CHECK(last == 98 && map.size() == 33 && !map.contains(keys[98]) && **map.find(keys[97]) == 97);
    auto rest = side.erase(side.cbegin());
    CHECK(rest->first == keys[2] && side.size() == 65 && !side.contains(keys[1]) && *side.at(keys[2]) == -2);
    /* A key that an iterator erased isn't made again. */
    key next = map.emplace(new int(200));
    CHECK(next.index() == keys[98].index() && next.version() == 3 && map.erase(map.begin()) != map.end());
}

static void check_swap()
{
    slotmaps::slot_map<std::string> a, b;
    slotmaps::side_map<std::string> c, d;
    key first = a.insert("first"), second = a.insert("second");
    CHECK(c.put(first, "third") && c.put(second, "fourth"));
    using std::swap;
    swap(a, b);
    swap(c, d);
    CHECK(a.empty() && c.empty() && b.at(second) == "second" && d.at(first) == "third" && a.insert("new") == first && b.size() == 2);
    slotmaps::word_map<int> e, f;
    slotmaps::side_table<int> g, h;
    key word = e.insert(5);
    CHECK(g.put(word, 6));
    swap(e, f);
    swap(g, h);
    CHECK(e.empty() && g.empty() && f.get(word) == 5 && h.get(word) == 6);
}

/* A key replaces an older one of its index, and never a newer one. */
static void check_side_map()
{
    slotmaps::slot_map<int> map;
    slotmaps::side_map<std::string> side;
    std::optional<std::pair<key, std::string>> stood;
    key a = map.insert(1);
    CHECK(side.empty() && side.capacity() == 0 && side.find(a) == nullptr && side.begin() == side.end());
    CHECK(side.put(a, "one", &stood) && !stood && side.put(a, "two", &stood) && stood->first == a && stood->second == "one");
    map.erase(a);
    key b = map.insert(2);
    CHECK(side.contains(a) && !side.contains(b) && side.put(b, "three", &stood) && stood->first == a && stood->second == "two");
    CHECK(!side.put(a, "four", &stood) && !side.contains(a) && side.at(b) == "three" && side.size() == 1);
    for (std::uint64_t id : {SLOTMAP_START, SLOTMAP_NULL, UINT64_MAX, std::uint64_t{5}, std::uint64_t{2} << 32 | 1, std::uint64_t{1} << 32})
        CHECK(!side.put(key{id}, "five") && side.find(key{id}) == nullptr && !side.erase(key{id}));
    /* Versions wrap around: one that is 2^31 ahead is older, and so is one that is 2^31 behind. */
    auto at = [](std::uint64_t version) { return key{version << 32 | 7}; };
    CHECK(side.put(at(0x80000001), "six") && !side.put(at(1), "seven") && side.put(at(0xffffffff), "eight"));
    CHECK(side.put(at(1), "nine") && !side.put(at(0xffffffff), "ten") && side.at(at(1)) == "nine" && side.size() == 2);
    auto copy = side;
    CHECK(side.erase(b) == "three" && !side.erase(b) && copy.at(b) == "three" && side.size() == 1 && copy.size() == 2);
    side.reserve(100);
    side.clear();
    CHECK(side.empty() && side.capacity() >= 100 && copy.begin()->second == "three" && std::next(copy.begin())->first == at(1));
    copy = std::move(side);
    CHECK(copy.empty() && copy.put(b, "eleven"));
}

/* The room that a map says it has is there, also after a copy, and vacant slots ask for none. */
static void check_capacity()
{
    slotmaps::slot_map<std::string> map;
    std::vector<key> keys;
    for (int i = 0; i < 11; i++)
        keys.push_back(map.insert("a text that is too long for the string itself"));
    auto copy = map;
    CHECK(copy.size() == 11 && copy.capacity() >= 11 && map.capacity() >= 11);
    copy.reserve(20);
    std::size_t room = copy.capacity();
    CHECK(room >= 31);
    while (copy.size() < room)
        copy.emplace();
    const std::string *first = copy.find(keys[0]);
    CHECK(copy.erase(keys[5]) && copy.emplace().index() == keys[5].index() && copy.capacity() == room && copy.find(keys[0]) == first);
}

/* A node owns its children: its destructor erases them. */
struct scene;
struct node {
    scene *in;
    std::vector<key> children;

    explicit node(scene *it) : in(it) {}
    node(node &&other) noexcept : in(std::exchange(other.in, nullptr)), children(std::move(other.children)) {}
    ~node();
};
struct scene {
    slotmaps::slot_map<node> nodes;
    slotmaps::side_map<std::shared_ptr<node>> extra;
    unsigned long ended = 0;
};
node::~node()
{
    if (in == nullptr)
        return;
    in->ended++;
    for (key child : children)
        in->nodes.erase(child);
}

static key tree(scene &in, int depth)
{
    node made(&in);
    for (int i = 0; depth > 0 && i < 3; i++)
        made.children.push_back(tree(in, depth - 1));
    return in.nodes.insert(std::move(made));
}

static void check_destructors()
{
    scene one;
    key root = tree(one, 4), other = tree(one, 2);
    CHECK(one.nodes.size() == 121 + 13);
    one.nodes.erase(root);
    CHECK(one.nodes.size() == 13 && one.ended == 121 && one.nodes.contains(other) && !one.nodes.contains(root));
    tree(one, 4);
    one.nodes.clear();
    CHECK(one.nodes.empty() && one.nodes.begin() == one.nodes.end() && one.ended == 121 + 134 && !one.nodes.contains(other));
    /* The children come first in this order, and their parents in the other. */
    key parent = one.nodes.emplace(&one);
    for (int i = 0; i < 40; i++) {
        key child = one.nodes.emplace(&one);
        one.nodes.at(parent).children.push_back(child);
    }
    one.nodes.clear();
    CHECK(one.nodes.empty() && one.ended == 255 + 41);
    one.nodes.erase(tree(one, 3));
    tree(one, 3);
    CHECK(one.nodes.size() == 40 && erase_if(one.nodes, [](auto pair) { return pair.second.children.empty(); }) == 27);
    CHECK(one.nodes.size() == 13);
}

/* Another map is assigned over one whose nodes erase their children: its own nodes have the same keys, and stay. */
static void check_assigning()
{
    scene one;
    for (int turn = 0; turn < 3; turn++) {
        scene other;
        key root = tree(other, 3);
        for (auto pair : other.nodes)
            pair.second.in = &one;
        one.nodes = std::move(other.nodes);
        CHECK(one.nodes.size() == 40 && one.nodes.contains(root) && one.nodes.at(root).children.size() == 3);
        CHECK(one.ended == 40 * static_cast<unsigned long>(turn));
    }
}

/* A value that ends the whole side map with it. */
struct last_one {
    slotmaps::side_map<last_one> *in;
    bool clears;

    last_one(slotmaps::side_map<last_one> *it, bool last) : in(it), clears(last) {}
    last_one(last_one &&other) noexcept : in(std::exchange(other.in, nullptr)), clears(other.clears) {}
    ~last_one()
    {
        if (in != nullptr && clears)
            in->clear();
    }
};

static void check_clearing_destructors()
{
    slotmaps::slot_map<int> map;
    slotmaps::side_map<last_one> side, other;
    std::vector<key> keys;
    for (int i = 0; i < 10; i++)
        keys.push_back(map.insert(i));
    auto fill = [&] {
        for (key at : keys)
            CHECK(side.put(at, last_one(&side, at == keys[3])));
        CHECK(side.size() == 10);
    };
    fill();
    CHECK(side.put(keys[3], last_one(&side, false)) && side.size() == 1 && side.contains(keys[3]) && side.begin()->first == keys[3]);
    fill();
    auto next = side.erase(std::next(side.cbegin(), 3));
    CHECK(next == side.end() && side.empty());
    fill();
    CHECK(erase_if(side, [](auto pair) { return pair.second.clears; }) == 10 && side.empty());
    fill();
    side.erase(keys[3]);
    CHECK(side.empty() && side.begin() == side.end());
    fill();
    side.clear();
    CHECK(side.empty());
    fill();
    CHECK(other.put(keys[3], last_one(&other, false)));
    side = std::move(other);
    CHECK(side.size() == 1 && side.contains(keys[3]));
}

/* A type that holds maps of itself. */
struct folder {
    std::string name;
    slotmaps::slot_map<folder> folders;
    slotmaps::side_map<folder> links;
};

static void check_recursion()
{
    slotmaps::slot_map<folder> root;
    key a = root.insert({"a", {}, {}});
    key b = root.at(a).folders.insert({"b", {}, {}});
    CHECK(root.at(a).links.put(b, {"c", {}, {}}) && root.at(a).folders.at(b).name == "b");
    auto copy = root;
    root.clear();
    CHECK(copy.at(a).links.at(b).name == "c");
}

/* A value that is aligned by more than the heap gives unasked. */
struct alignas(64) wide {
    int number;
};

static void check_alignment()
{
    slotmaps::slot_map<wide> map;
    for (int i = 0; i < 100; i++)
        CHECK(reinterpret_cast<std::uintptr_t>(map.find(map.insert(wide{i}))) % 64 == 0);
    int next = 0;
    for (auto [at, value] : map)
        CHECK(value.number == next++ && at.index() == static_cast<std::uint32_t>(next));
}

/* A value that takes no `&`. */
struct hidden {
    int number;
    hidden *operator&() = delete;
    const hidden *operator&() const = delete;
};

static void check_addresses()
{
    slotmaps::slot_map<hidden> map;
    slotmaps::side_map<hidden> side;
    key a = map.insert(hidden{5});
    CHECK(side.put(a, hidden{6}) && map.find(a)->number == 5 && side.at(a).number == 6 && map.erase(a)->number == 5);
}

#if defined(__cpp_exceptions)
/* A value of which the n-th copy or move throws. */
struct heavy {
    static int left, moves;
    int number;

    explicit heavy(int it) : number(it) {}
    heavy(const heavy &other) : number(other.number) { step(); }
    heavy(heavy &&other) : number(other.number)
    {
        step();
        other.number = -1;
    }

private:
    static void step()
    {
        if (left > 0 && --left == 0)
            throw 1;
        moves++;
    }
};
int heavy::left = 0, heavy::moves = 0;

template <class Call> static bool throws(int nth, Call call)
{
    heavy::left = nth;
    heavy::moves = 0;
    bool thrown = false;
    try {
        call();
    } catch (int) {
        thrown = true;
    }
    heavy::left = 0;
    return thrown;
}

/* `erase` and `detach` move a value once. If that move throws, the key stays live; there is no second. */
static void check_nth_move()
{
    slotmaps::slot_map<heavy> map;
    slotmaps::side_map<heavy> side;
    key a = map.emplace(1), b = map.emplace(2), c = map.emplace(3);
    CHECK(side.put(a, heavy(4)) && side.put(b, heavy(5)));
    CHECK(throws(1, [&] { map.erase(a); }) && map.at(a).number == 1 && map.size() == 3);
    CHECK(throws(1, [&] { map.detach(b); }) && map.at(b).number == 2 && map.size() == 3);
    CHECK(throws(1, [&] { side.erase(a); }) && side.at(a).number == 4 && side.size() == 2);
    CHECK(!throws(2, [&] { CHECK(map.erase(a)->number == 1); }) && heavy::moves == 1 && !map.contains(a) && map.size() == 2);
    CHECK(!throws(2, [&] { CHECK(map.detach(b)->number == 2); }) && heavy::moves == 1 && !map.contains(b) && map.size() == 1);
    CHECK(!throws(2, [&] { CHECK(side.erase(a)->number == 4); }) && heavy::moves == 1 && !side.contains(a) && side.size() == 1);
    CHECK(throws(1, [&] { map.reattach(b, heavy(6)); }) && !map.contains(b) && map.reattach(b, heavy(7)) && map.at(b).number == 7);
    CHECK(throws(1, [&] { side.put(c, heavy(8)); }) && !side.contains(c) && side.size() == 1);
    CHECK(throws(1, [&] { slotmaps::slot_map<heavy> copy(map); }) && throws(2, [&] { slotmaps::slot_map<heavy> copy(map); }));
    CHECK(map.at(b).number == 7 && map.at(c).number == 3 && side.at(b).number == 5);
    /* Where the array grows, as that of a copy does at once, the values are copied, since a move may throw. */
    slotmaps::slot_map<heavy> grown;
    for (int i = 0; i < 10; i++)
        grown.emplace(i);
    auto growing = grown;
    std::vector<key> keys;
    for (auto pair : growing)
        keys.push_back(pair.first);
    for (int nth = 1; nth <= 10; nth++)
        CHECK(throws(nth, [&] { growing.emplace(-2); }) && growing.size() == 10 && growing.at(keys[9]).number == 9 && growing.at(keys[0]).number == 0);
    CHECK(growing.emplace(-2).id == 0x10000000b);
    /* An exception that is under way already is no failed move. */
    struct last_words {
        slotmaps::slot_map<heavy> &map;
        key at;
        ~last_words() { map.erase(at); }
    };
    CHECK(throws(0, [&] { last_words erases{growing, keys[0]}; throw 1; }) && !growing.contains(keys[0]));
}
#endif

int main()
{
    check_tags();
    check_erasing();
    check_swap();
    check_side_map();
    check_capacity();
    check_destructors();
    check_assigning();
    check_clearing_destructors();
    check_recursion();
    check_alignment();
    check_addresses();
#if defined(__cpp_exceptions)
    check_nth_move();
#endif
    std::printf("values: %llu checks\n", checks);
}
