// A model whose state is a struct of containers in an object of the library, rolled back a thousand times: after each the state, reached by
// the same pointers, is the copy of the whole that was taken beside the log.
//   c++ -std=c++17 -o pmr examples/pmr.cpp $(pkg-config --cflags --libs dymelor) && ./pmr
#include <dymelor.hpp>

#include <algorithm>
#include <deque>
#include <iostream>
#include <list>
#include <map>
#include <string>

// A warehouse: what lies where, what is asked for, and what was sold.
struct warehouse {
    explicit warehouse(std::pmr::memory_resource *memory) : stock(memory), orders(memory), sold(memory), last(memory) {}

    std::pmr::map<std::pmr::string, unsigned> stock;
    std::pmr::list<std::pmr::string> orders;
    std::pmr::deque<unsigned> sold;
    std::pmr::string last;
    std::uint64_t random = 1;
};

bool operator==(const warehouse &a, const warehouse &b)
{
    return a.stock == b.stock && a.orders == b.orders && a.sold == b.sold && a.last == b.last && a.random == b.random;
}

std::uint64_t draw(std::uint64_t &random, std::uint64_t below)
{
    random = random * 6364136223846793005 + 1442695040888963407;
    return (random >> 33) % below;
}

// An event: goods come, an order comes, or the oldest order is met. Longer names are blocks of their own.
void event(warehouse &w)
{
    std::pmr::string name(draw(w.random, 40), '.', w.last.get_allocator());
    name += std::to_string(draw(w.random, 60));
    switch (draw(w.random, 4)) {
    case 0: w.stock[name] += 5; break;
    case 1: w.orders.push_back(name); break;
    case 2: w.stock.erase(name); break;
    default:
        if (w.orders.empty()) break;
        if (auto found = w.stock.find(w.orders.front()); found != w.stock.end() && found->second > 0) w.sold.push_back(--found->second);
        w.orders.pop_front();
    }
    w.last = name;
}

int main()
{
    dymelor::object process(64);
    dymelor::resource memory(process);
    warehouse &state = *process.make<warehouse>(&memory);
    std::map<std::uint64_t, warehouse> copies; // in the memory of new
    std::uint64_t now = 0, bound = 1, chance = 7, differences = 0;
    for (int rollbacks = 0; rollbacks < 1000;) {
        event(state);
        process.log(++now, dymelor::wrote::anywhere);
        copies.insert_or_assign(now, state);
        if (draw(chance, 8) > 0) continue;
        now = process.restore(bound + draw(chance, now - bound + 1), dymelor::wrote::anywhere);
        differences += !(state == copies.at(now));
        rollbacks++;
        bound = std::max(bound, now - std::min<std::uint64_t>(now - 1, 10)); // no event before it is undone any more
        process.prune(bound);
        copies.erase(copies.begin(), copies.lower_bound(bound));
    }
    std::cout << "1000 rollbacks, " << differences << " with another state; " << state.stock.size() << " kinds of goods, "
              << state.orders.size() << " orders, " << state.sold.size() << " sold\n";
    return differences > 0;
}
