/*
 * A simulator over processes of the library in C++17, in one thread: the model of process.c, two processes that send each other tokens. Each token waits
 * a time that depends on what its receiver has seen, so that tokens come out of order, and processes are rolled back.
 *   c++ -std=c++17 -I include examples/process.cpp "$(checks/lib/c-library)" && ./a.out
 */
#include "dymelor_process.hpp"

#include <algorithm>
#include <array>
#include <cstdint>
#include <cstdio>
#include <exception>
#include <vector>

namespace {

constexpr std::uint32_t processes = 2;
constexpr std::uint64_t end = 1000;

struct state {
    std::uint64_t seen = 0;
};

/* What each process does. Its members stay as they are after the start: all that events change lies in the state. */
class tokens {
public:
    void start(dymelor::process &p)
    {
        place_ = p.state().make<state>();
        const dym_event first = dym_event_to(p.number(), 1 + p.number(), 0, 0, 0);
        p.send(first);
        p.send(first);
    }

    /* Counts the token, and sends it on. */
    void run(dymelor::process &p, const dym_event &event)
    {
        state &own = p.state().touch<state>(place_.chunk); /* before the first write */
        own.seen++;
        const std::uint64_t time = event.time + 1 + (own.seen * 7 + event.time) % 5;
        if (time <= end) p.send(dym_event_to((p.number() + 1) % processes, time, 0, 0, 0));
    }

    std::uint64_t seen() const { return place_->seen; }

private:
    dymelor::placed<state> place_{}; /* the chunk stays at its address */
};

/* A process with its model. */
struct site {
    tokens model;
    dymelor::process process;
};

using sites = std::array<site, processes>;

/* Takes what processes send to their receivers, and what that makes them send, until nothing is on its way. Returns how many events were undone. */
std::uint64_t deliver(sites &all)
{
    std::uint64_t undone = 0;
    std::vector<dym_message> on_its_way;
    do {
        on_its_way.clear();
        for (site &from : all) from.process.deliver([&](const dym_message &message) { on_its_way.push_back(message); });
        for (const dym_message &message : on_its_way) undone += all[message.event.receiver].process.take(message);
    } while (!on_its_way.empty());
    return undone;
}

/* The bound: no event before it comes any more, since nothing is on its way. */
std::uint64_t bound(sites &all)
{
    std::uint64_t least = UINT64_MAX;
    for (site &it : all) least = std::min(least, it.process.next().value_or(UINT64_MAX));
    return least;
}

void simulate()
{
    sites all;
    dym_process_config config{};
    config.processes = processes;
    config.period = 4;
    config.quota = 1;
    config.version = 2;
    for (site &it : all) {
        const dym_status status = it.process.try_open(config, it.model);
        if (status != DYM_DONE) throw dymelor::refused(status);
        config.number++;
    }
    std::uint64_t committed = 0, undone = 0, limit = 0;
    do {
        undone += deliver(all);
        limit = bound(all);
        for (site &it : all) {
            it.process.commit(limit, [&](const dym_event &) { committed++; });
            for (int ahead = 0; ahead < 8 && it.process.run(it.model); ahead++) {
            }
        }
    } while (limit < UINT64_MAX);
    for (site &it : all)
        std::printf("process %u saw %llu tokens\n", static_cast<unsigned>(it.process.number()), static_cast<unsigned long long>(it.model.seen()));
    std::printf("%llu events, %llu undone on the way\n", static_cast<unsigned long long>(committed), static_cast<unsigned long long>(undone));
}

} // namespace

int main()
{
    try {
        simulate();
        return 0;
    } catch (const std::exception &why) {
        std::fprintf(stderr, "process: %s\n", why.what());
        return 1;
    }
}
