/* SPDX-License-Identifier: MIT
 * Copyright (c) 2026 the Sevlurga maintainers
 *
 * slotmap_words.hpp: word_map and side_table, whose values of at most 8 bytes stand in the proved map and the proved side table.
 * slotmap.hpp includes it, and says what holds of all its classes.
 */
#ifndef SLOTMAP_WORDS_HPP
#define SLOTMAP_WORDS_HPP

#include "slotmap_detail.hpp"

#include <cstring>
#include <vector>

namespace slotmaps {

namespace detail {

/* A value of at most 8 bytes as a number, and back. */
template <class T> struct word {
    static_assert(sizeof(T) <= 8 && std::is_trivially_copyable<T>::value, "a value has at most 8 bytes, and is trivially copyable");

    static std::uint64_t of(const T &value) noexcept
    {
        std::uint64_t number = 0;
        std::memcpy(&number, &value, sizeof value);
        return number;
    }
    static T back(std::uint64_t number) noexcept
    {
        alignas(T) unsigned char bytes[sizeof(T)];
        std::memcpy(bytes, &number, sizeof bytes);
        return *std::launder(reinterpret_cast<T *>(bytes));
    }
    /* By reference: the call that writes the number is the other argument, and either may be evaluated first. */
    static std::optional<T> found(slotmap_status status, const std::uint64_t &number)
    {
        return status == SLOTMAP_OK ? std::optional<T>(back(number)) : std::nullopt;
    }
};

} // namespace detail

/* Values of at most 8 bytes, in the proved map itself. */
template <class T, class Tag = void> class word_map {
    using word = detail::word<T>;
    detail::handle<slotmap_t, slotmap_new, slotmap_free, slotmap_clone> map;
    mutable detail::lead lowest;

public:
    using key_type = typed_key<Tag>;

    word_map() noexcept = default;
    word_map(word_map &&) noexcept = default;
    word_map(const word_map &other) : map(other.map), lowest(other.lowest) {}
    word_map &operator=(word_map other) noexcept
    {
        swap(other);
        return *this;
    }

    void swap(word_map &other) noexcept
    {
        std::swap(map, other.map);
        std::swap(lowest, other.lowest);
    }
    friend void swap(word_map &a, word_map &b) noexcept { a.swap(b); }
    /* Whether they have the same keys with equal values. What keys they make next may differ. */
    friend bool operator==(const word_map &a, const word_map &b) { return detail::equal(a, b); }
    friend bool operator!=(const word_map &a, const word_map &b) { return !(a == b); }

    [[nodiscard]] std::size_t size() const noexcept { return slotmap_len(map.get()); }
    [[nodiscard]] bool empty() const noexcept { return size() == 0; }
    [[nodiscard]] std::size_t capacity() const noexcept { return slotmap_capacity(map.get()); }
    void reserve(std::size_t more) { detail::check(slotmap_reserve(map.opened(), more)); }
    void clear() noexcept { slotmap_clear(map.get()); }

    [[nodiscard]] key_type insert(const T &value)
    {
        key_type made;
        detail::check(slotmap_insert(map.opened(), word::of(value), &made.id));
        lowest.reach(made.index());
        return made;
    }
    [[nodiscard]] bool contains(key_type at) const noexcept { return slotmap_contains(map.get(), detail::number_of(at)); }
    [[nodiscard]] std::optional<T> get(key_type at) const
    {
        std::uint64_t number = 0;
        return word::found(slotmap_get(map.get(), detail::number_of(at), &number), number);
    }
    /* Returns the value that it had. */
    std::optional<T> set(key_type at, const T &value)
    {
        std::uint64_t number = 0;
        return word::found(slotmap_set(map.get(), detail::number_of(at), word::of(value), &number), number);
    }
    std::optional<T> erase(key_type at)
    {
        std::uint64_t number = 0;
        return word::found(slotmap_remove(map.get(), detail::number_of(at), &number), number);
    }
    std::optional<T> detach(key_type at)
    {
        std::uint64_t number = 0;
        return word::found(slotmap_detach(map.get(), detail::number_of(at), &number), number);
    }
    bool reattach(key_type at, const T &value)
    {
        if (slotmap_reattach(map.get(), detail::number_of(at), word::of(value)) != SLOTMAP_OK)
            return false;
        lowest.reach(at.index());
        return true;
    }

    /* By ascending index. The map may change during the iteration, but must not be moved. */
    class iterator {
        const slotmap_t *map = nullptr;
        key_type at;
        std::uint64_t number = 0;

    public:
        using iterator_category = std::input_iterator_tag;
        using value_type = std::pair<key_type, T>;
        using difference_type = std::ptrdiff_t;
        using pointer = void;
        using reference = value_type;

        iterator() noexcept = default;
        /* At the first key whose index is above that of another. */
        explicit iterator(const slotmap_t *over, key_type after = {}) : map(over), at(after) { ++*this; }
        iterator &operator++()
        {
            if (slotmap_next(map, at.id, &at.id, &number) != SLOTMAP_OK)
                *this = iterator();
            return *this;
        }
        iterator operator++(int)
        {
            iterator before = *this;
            ++*this;
            return before;
        }
        value_type operator*() const { return {at, word::back(number)}; }
        friend bool operator==(const iterator &a, const iterator &b) { return a.map == b.map && a.at == b.at; }
        friend bool operator!=(const iterator &a, const iterator &b) { return !(a == b); }
    };
    [[nodiscard]] iterator begin() const
    {
        if (empty())
            return end();
        iterator first(map.get(), key_type{lowest.get()});
        lowest.set((*first).first.index() - 1);
        return first;
    }
    [[nodiscard]] iterator end() const { return iterator(); }
};

/* Further values of at most 8 bytes under the keys of a map. It knows nothing of removals: erase a key here too. It takes 16 bytes for each
 * index up to that of a key. So one key from outside may take gigabytes: ask the map first whether it is live. */
template <class T, class Tag = void> class side_table {
    using word = detail::word<T>;
    detail::handle<slotmap_side_t, slotmap_side_new, slotmap_side_free, slotmap_side_clone> side;

public:
    using key_type = typed_key<Tag>;

    side_table() noexcept = default;
    side_table(side_table &&) noexcept = default;
    side_table(const side_table &other) : side(other.side) {}
    side_table &operator=(side_table other) noexcept
    {
        side = std::move(other.side);
        return *this;
    }

    void swap(side_table &other) noexcept { std::swap(side, other.side); }
    friend void swap(side_table &a, side_table &b) noexcept { a.swap(b); }
    friend bool operator==(const side_table &a, const side_table &b) { return a.pairs() == b.pairs(); }
    friend bool operator!=(const side_table &a, const side_table &b) { return !(a == b); }

    [[nodiscard]] std::size_t size() const noexcept { return slotmap_side_len(side.get()); }
    [[nodiscard]] bool empty() const noexcept { return size() == 0; }
    /* The largest index for which there is memory. */
    [[nodiscard]] std::size_t capacity() const noexcept { return slotmap_side_capacity(side.get()); }
    void reserve(std::size_t index) { detail::check(slotmap_side_reserve(side.opened(), index)); }
    void clear() noexcept { slotmap_side_clear(side.get()); }

    /* Puts a value, and writes what stood at this index: this key or an older one, with its value. Returns false, and changes
     * nothing, if no map returns such a key, or if it is older than the one at its index. */
    bool put(key_type at, const T &value, std::optional<std::pair<key_type, T>> *stood = nullptr)
    {
        if (detail::number_of(at) == SLOTMAP_NULL)
            return false;
        key_type older;
        std::uint64_t number = 0;
        slotmap_status status = slotmap_side_exchange(side.opened(), at.id, word::of(value), &older.id, &number);
        if (status == SLOTMAP_NO_ENTRY)
            return false;
        detail::check(status);
        if (stood != nullptr)
            *stood = older ? std::make_optional(std::make_pair(older, word::back(number))) : std::nullopt;
        return true;
    }
    [[nodiscard]] bool contains(key_type at) const noexcept { return slotmap_side_contains(side.get(), detail::number_of(at)); }
    [[nodiscard]] std::optional<T> get(key_type at) const
    {
        std::uint64_t number = 0;
        return word::found(slotmap_side_get(side.get(), detail::number_of(at), &number), number);
    }
    std::optional<T> erase(key_type at)
    {
        std::uint64_t number = 0;
        return word::found(slotmap_side_remove(side.get(), detail::number_of(at), &number), number);
    }
    /* All pairs, by ascending index. */
    [[nodiscard]] std::vector<std::pair<key_type, T>> pairs() const
    {
        std::vector<std::uint64_t> keys(size() + 1), numbers(size() + 1);
        std::size_t count = slotmap_side_list(side.get(), keys.data(), keys.size(), numbers.data(), numbers.size());
        std::vector<std::pair<key_type, T>> all;
        all.reserve(count);
        for (std::size_t i = 0; i < count; i++)
            all.emplace_back(key_type{keys[i]}, word::back(numbers[i]));
        return all;
    }
};

} // namespace slotmaps

#endif
