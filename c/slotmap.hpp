/* SPDX-License-Identifier: MIT
 * Copyright (c) 2026 the Sevlurga maintainers
 *
 * slotmap.hpp: the maps of slotmap.h as classes, for C++17.
 *
 *     slotmaps::slot_map<T>       values that can be moved, in one array; the proved calls make and retire their keys
 *     slotmaps::side_map<T>       further values that can be moved, under the keys of a map
 *     slotmaps::word_map<T>       values of at most 8 bytes, in the proved map itself (slotmap_words.hpp, which is included here)
 *     slotmaps::side_table<T>     further values of at most 8 bytes, in the proved side table (the same file)
 *
 * Each has a second parameter, a tag, which is void. Keys of maps with different tags have different types:
 *
 *     struct players;
 *     slotmaps::slot_map<std::string, players> names;
 *     slotmaps::typed_key<players> first = names.insert("Ada");
 *     for (auto [key, name] : names)
 *         name += "!";
 *
 * The loop's pair is made at each step, so `auto &[key, name]` doesn't compile; `name` is a reference to the value nonetheless.
 *
 * Each frees what it has at the end of its scope. It can be moved, swapped and copied; a copy has the same keys. A call that can't get
 * memory throws std::bad_alloc, and one over 4294967294 keys std::length_error; the map then holds what it held, and makes the same
 * keys. Where the compiler has no exceptions (-fno-exceptions), what would throw calls std::abort.
 *
 * What is proved are the calls of slotmap.h: that no key is made twice, and which keys are live. These classes are tested, not proved,
 * and so is all of side_map.
 *
 * A slot_map or a side_map needs no more of T than a move constructor, and to be copied a copy constructor. If a move throws, `erase`
 * and `detach` leave the key live, and `reattach` leaves it detached. `emplace` and `insert` leave the map as it was, but may use up
 * a key. `side_map::put` may lose the entry at the key's index. Where a T that can't be copied throws as the array grows, values may
 * be lost, as in std::vector.
 *
 * A destructor of T may call `erase`, `find`, `clear` and the like on the map that it leaves, also during `clear` and where another map
 * is assigned. It must not insert there: the array may move.
 *
 * Many threads may read one of them at once, by its const calls, or copy it. Of these `begin` alone may write, and only a number that
 * is atomic: where the first value is. All this is tested; the proof of slotmap.h presumes one call at a time.
 */
#ifndef SLOTMAP_HPP
#define SLOTMAP_HPP

#if __cplusplus < 201703L
#error "slotmap.hpp needs C++17: -std=c++17"
#endif

#include "slotmap_detail.hpp"

namespace slotmaps {

/* Values that can be moved. The proved calls make and retire the keys. The values stand in an array at their keys' indices, each
 * beside its key. A look-up compares the two, and calls nothing. */
template <class T, class Tag = void> class slot_map : public detail::table<T, Tag> {
    using base = detail::table<T, Tag>;
    using place = detail::place<T>;
    using base::values;

    detail::handle<slotmap_keys_t, slotmap_keys_open, slotmap_keys_free, slotmap_keys_clone> keys;
    /* How many slots are vacant: that many keys need no room in the array. */
    std::size_t vacant = 0;

    /* The slot of a key of the last version is retired, and never vacant. */
    void remove(std::uint64_t id) noexcept
    {
        slotmap_keys_remove(keys.get(), id);
        vacant += id >> 32 != UINT32_MAX;
    }
    /* Puts the value of a key that was made or bound. If its move throws, `undo` takes the key back. */
    template <class Undo> void fill(std::uint64_t id, T &value, Undo undo)
    {
        detail::undo_unless_done<Undo> step{undo};
        values.fill(values.reach(static_cast<std::uint32_t>(id)), id, std::move(value));
        step.done = true;
    }

public:
    using key_type = typename base::key_type;
    using iterator = typename base::iterator;
    using const_iterator = typename base::const_iterator;

    slot_map() noexcept = default;
    slot_map(slot_map &&other) noexcept
        : base(std::move(other)), keys(std::move(other.keys)), vacant(std::exchange(other.vacant, 0))
    {
    }
    slot_map(const slot_map &other) : base(other), keys(other.keys), vacant(other.vacant) {}
    /* The values that were here go first: their destructors may call this map, and must not find those that come. */
    slot_map &operator=(slot_map other) noexcept
    {
        values.drop_all();
        swap(other);
        return *this;
    }
    /* While the map still answers, since a destructor of T may call it. */
    ~slot_map() { values.drop_all(); }
    void swap(slot_map &other) noexcept
    {
        values.swap(other.values);
        std::swap(keys, other.keys);
        std::swap(vacant, other.vacant);
    }
    friend void swap(slot_map &a, slot_map &b) noexcept { a.swap(b); }
    /* Whether they have the same keys with equal values. What keys they make next may differ. */
    friend bool operator==(const slot_map &a, const slot_map &b) { return detail::equal(a, b); }
    friend bool operator!=(const slot_map &a, const slot_map &b) { return !(a == b); }

    /* For how many slots there is memory, for the keys and in the array. */
    [[nodiscard]] std::size_t capacity() const noexcept { return std::min(values.capacity(), slotmap_keys_capacity(keys.get())); }
    /* The next `more` calls of `insert` or `emplace` get no memory, but for what the values themselves ask for. */
    void reserve(std::size_t more)
    {
        detail::check(slotmap_keys_reserve(keys.opened(), more));
        values.make_room(values.size() + (more > vacant ? more - vacant : 0));
    }

    /* For a value whose key isn't wanted too, since walks reach it: only `insert` is [[nodiscard]]. */
    template <class... Arguments> key_type emplace(Arguments &&...arguments)
    {
        /* First, since an argument may be a value of this map. */
        T value(std::forward<Arguments>(arguments)...);
        if (vacant == 0)
            values.make_room(values.size() + 1);
        key_type made;
        detail::check(slotmap_keys_insert(keys.opened(), &made.id));
        vacant -= made.index() <= values.size();
        fill(made.id, value, [&] { remove(made.id); });
        return made;
    }
    [[nodiscard]] key_type insert(const T &value) { return emplace(value); }
    [[nodiscard]] key_type insert(T &&value) { return emplace(std::move(value)); }

    /* Removes a live key, and returns its value. */
    std::optional<T> erase(key_type at)
    {
        place *found = values.find(at.id);
        return found == nullptr ? std::nullopt : this->move_out(*found, [&] { remove(at.id); });
    }
    /* Removes the key that an iterator is at, and returns the next. The value is dropped where it stands. */
    iterator erase(const_iterator where) noexcept
    {
        place &at = base::place_at(where);
        std::uint64_t id = at.id;
        values.drop(at);
        remove(id);
        return this->next_after(at);
    }
    /* Takes the value of a live key out, and keeps the slot for the key. */
    std::optional<T> detach(key_type at)
    {
        place *found = values.find(at.id);
        return found == nullptr ? std::nullopt : this->move_out(*found, [&] { slotmap_keys_detach(keys.get(), at.id); });
    }
    /* Binds a detached key to a value again. Returns false, and changes nothing, if the key isn't detached. */
    bool reattach(key_type at, T value)
    {
        if (slotmap_keys_reattach(keys.get(), detail::number_of(at)) != SLOTMAP_OK)
            return false;
        fill(at.id, value, [&] { slotmap_keys_detach(keys.get(), at.id); });
        return true;
    }
    /* Removes every live key, by ascending index. The capacity stays, and detached keys stay detached. */
    void clear() noexcept
    {
        for (place &each : values)
            if (std::uint64_t id = each.id; each.has_value()) {
                values.drop(each);
                remove(id);
            }
    }
};

/* Erases every key for which `matches` returns true of the pair of a key and its value, and returns how many keys fewer there are:
 * what the destructors erase meanwhile counts too. `matches` may take the pair as `auto`, as `auto &` or as `const auto &`. */
template <class T, class Tag, class Matches> std::size_t erase_if(slot_map<T, Tag> &map, Matches matches)
{
    return detail::erase_if(map, matches);
}

/* Further values that can be moved, under the keys of a map. It has at most one value for each index. A put under a newer key takes the
 * place of an older one, never the reverse; versions wrap around, as slotmap.h has it. It knows nothing of removals: erase a key here
 * too. It takes memory for each index up to that of a key. So one key from outside may take gigabytes: ask the map first whether it
 * is live. */
template <class T, class Tag = void> class side_map : public detail::table<T, Tag> {
    using base = detail::table<T, Tag>;
    using place = detail::place<T>;
    using base::values;

    static bool is_older(std::uint64_t id, std::uint64_t than) noexcept
    {
        return static_cast<std::uint32_t>(id >> 32) - static_cast<std::uint32_t>(than >> 32) >= std::uint32_t{1} << 31;
    }

public:
    using key_type = typename base::key_type;
    using iterator = typename base::iterator;
    using const_iterator = typename base::const_iterator;

    side_map() noexcept {}
    side_map(side_map &&) noexcept = default;
    side_map(const side_map &) = default;
    side_map &operator=(side_map other) noexcept
    {
        values.drop_all();
        swap(other);
        return *this;
    }
    ~side_map() { values.drop_all(); }
    void swap(side_map &other) noexcept { values.swap(other.values); }
    friend void swap(side_map &a, side_map &b) noexcept { a.swap(b); }
    friend bool operator==(const side_map &a, const side_map &b) { return detail::equal(a, b); }
    friend bool operator!=(const side_map &a, const side_map &b) { return !(a == b); }

    /* The largest index for which there is memory. */
    [[nodiscard]] std::size_t capacity() const noexcept { return values.capacity(); }
    /* Makes sure of memory for each index up to a number. */
    void reserve(std::size_t index)
    {
        if (index >= UINT32_MAX)
            detail::fail<std::length_error>(slotmap_status_text(SLOTMAP_FULL));
        values.make_room(index);
    }

    /* Puts a value, and writes what stood at this index: this key or an older one, with its value. Returns false, and changes
     * nothing, if no map returns such a key, or if it is older than the one at its index. */
    bool put(key_type at, T value, std::optional<std::pair<key_type, T>> *stood = nullptr)
    {
        if (detail::number_of(at) == SLOTMAP_NULL)
            return false;
        values.make_room(at.index());
        place &here = values.reach(at.index());
        if (here.has_value() && is_older(at.id, here.id))
            return false;
        if (stood != nullptr)
            stood->reset();
        if (here.has_value()) {
            if (stood != nullptr)
                stood->emplace(key_type{here.id}, std::move(here.value()));
            values.drop(here);
        }
        /* The place is reached anew, since the destructor may have cleared the map. */
        values.fill(values.reach(at.index()), at.id, std::move(value));
        return true;
    }
    /* Removes a key, and returns its value. */
    std::optional<T> erase(key_type at)
    {
        place *found = values.find(at.id);
        return found == nullptr ? std::nullopt : this->move_out(*found, [] {});
    }
    /* Removes the key that an iterator is at, and returns the next. */
    iterator erase(const_iterator where) noexcept
    {
        place &at = base::place_at(where);
        values.drop(at);
        return this->next_after(at);
    }
    /* Removes every key. The capacity stays. */
    void clear() noexcept { values.drop_all(); }
};

/* Erases every key for which `matches` returns true of the pair of a key and its value, and returns how many keys fewer there are:
 * what the destructors erase meanwhile counts too. `matches` may take the pair as `auto`, as `auto &` or as `const auto &`. */
template <class T, class Tag, class Matches> std::size_t erase_if(side_map<T, Tag> &map, Matches matches)
{
    return detail::erase_if(map, matches);
}

} // namespace slotmaps

#include "slotmap_words.hpp"

#endif
