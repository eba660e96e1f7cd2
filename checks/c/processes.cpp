/*
 * dymelor_process.hpp: two processes whose events hop between them, as a model of closures and as a class, delivered out of order, against a run
 * in order. It ends with 0, or with 1 at the first difference.
 */
#include <dymelor_process.hpp>

#include <cstdio>
#include <cstdlib>
#include <map>
#include <tuple>

namespace {

void must(bool holds, const char *what, int line)
{
    if (holds) return;
    std::fprintf(stderr, "processes.cpp:%d: %s\n", line, what);
    std::exit(1);
}

#define MUST(what) must((what), #what, __LINE__)

constexpr std::uint64_t hops = 20;

struct counter {
    std::uint64_t sum;
};

std::uint64_t after(std::uint64_t sum, const dym_event &e)
{
    return sum * 31 + e.time * 7 + e.kind;
}

/* What an event sends, from the sum that it led to. */
dym_event sent_by(const dym_event &e, std::uint64_t sum)
{
    return dym_event_to(1 - e.receiver, e.time + 1 + sum % 3, e.kind - 1, 0, 0);
}

dym_event first_of(std::uint32_t number)
{
    return dym_event_to(number, 1 + number, hops, 0, 0);
}

/* A model as a class. */
struct hopping {
    dymelor::handle chunk[2] = {};

    void start(dymelor::process &p)
    {
        const auto made = p.state().make<counter>();
        made->sum = p.number();
        chunk[p.number()] = made.chunk;
        p.send(first_of(p.number()));
        p.send(first_of(p.number()));
    }

    void run(dymelor::process &p, const dym_event &e)
    {
        counter &c = p.state().touch<counter>(chunk[p.number()]);
        c.sum = after(c.sum, e);
        if (e.kind > 0) p.send(sent_by(e, c.sum));
    }
};

/* The sums of a run in order. */
std::pair<std::uint64_t, std::uint64_t> in_order()
{
    std::uint64_t sums[2] = {0, 1}, serials[2] = {0, 0};
    std::map<std::tuple<std::uint64_t, std::uint32_t, std::uint64_t>, dym_event> queue;
    const auto put = [&](std::uint32_t sender, const dym_event &e) { queue[{e.time, sender, serials[sender]++}] = e; };
    for (std::uint32_t k : {0u, 0u, 1u, 1u}) put(k, first_of(k));
    while (!queue.empty()) {
        const dym_event e = queue.begin()->second;
        queue.erase(queue.begin());
        sums[e.receiver] = after(sums[e.receiver], e);
        if (e.kind > 0) put(e.receiver, sent_by(e, sums[e.receiver]));
    }
    return {sums[0], sums[1]};
}

template <class Model> void try_model(Model model, dymelor::handle (&chunk)[2], std::uint64_t period)
{
    dym_process_config config{};
    config.processes = 2;
    config.period = period;
    config.quota = 1;
    config.version = 2;
    dymelor::process first(config, model);
    config.number = 1;
    dymelor::process second(config, model);
    dymelor::process *all[2] = {&first, &second};
    std::vector<dym_message> pool;
    const auto deliver = [&pool](const dym_message &m) { pool.push_back(m); };
    std::uint64_t undone = 0, committed = 0, turn = 0;
    for (;;) {
        for (dymelor::process *p : all) p->deliver(deliver);
        if (pool.empty() && !first.next() && !second.next()) break;
        for (std::size_t left = (pool.size() + 1) / 2; left > 0; left--) {
            const std::size_t place = turn++ % 2 == 0 ? pool.size() - 1 : 0;
            const dym_message m = pool[place];
            pool.erase(pool.begin() + static_cast<std::ptrdiff_t>(place));
            undone += all[m.event.receiver]->take(m);
        }
        for (dymelor::process *p : all) p->run(model);
    }
    const auto wanted = in_order();
    const std::uint64_t sums[2] = {wanted.first, wanted.second};
    for (dymelor::process *p : all) {
        p->settle(model);
        MUST(p->state().template at<counter>(chunk[p->number()]).sum == sums[p->number()]);
        p->commit(UINT64_MAX, [&](const dym_event &) { committed++; });
        MUST(p->progress().replays == 0);
    }
    MUST(committed == 4 * (hops + 1));
    MUST(undone > 0);
}

/* What a call throws. */
template <class Call> dym_status status_of(Call call)
{
    try {
        call();
    } catch (const dymelor::refused &why) {
        return why.status();
    }
    return DYM_DONE;
}

void try_refusals()
{
    dymelor::process closed;
    dym_message m{};
    MUST(!closed.is_open() && !closed.next() && closed.try_take(m) == DYM_STATE && closed.progress().ran == 0);
    MUST(status_of([&] { closed.take(m); }) == DYM_STATE);
}

/* Starts that are refused, or throw: the process is closed again, and can be opened by another model. */
void try_failing_starts()
{
    using start = void (*)(dymelor::process &);
    const std::pair<dym_status, start> rows[] = {
        {DYM_ASTRAY, [](dymelor::process &p) { p.state().log(1, dymelor::wrote::touched); }},
        {DYM_STATE, [](dymelor::process &p) { p.state().close(); }},
        {DYM_NO_PROCESS, [](dymelor::process &p) { p.send(first_of(2)); }},
        {DYM_NO_LOG, [](dymelor::process &p) { p.state().restore(1, dymelor::wrote::touched); }},
    };
    dym_process_config config{};
    config.processes = config.quota = 1;
    config.version = 2;
    const auto run = [](dymelor::process &, const dym_event &) {};
    auto empty = dymelor::model_of([](dymelor::process &) {}, run);
    for (const auto &[wanted, start] : rows) {
        auto model = dymelor::model_of(start, run);
        dymelor::process p;
        MUST(status_of([&] { dymelor::done(p.try_open(config, model)); }) == wanted && !p.is_open() && !p.state().is_open());
        MUST(p.try_open(config, empty) == DYM_DONE && p.is_open() && p.state().is_open());
        MUST(status_of([&] { dymelor::process constructed(config, model); }) == wanted);
    }
}

} // namespace

int main()
{
    static dymelor::handle chunk[2];
    const auto start = [](dymelor::process &p) {
        const auto made = p.state().make<counter>();
        made->sum = p.number();
        chunk[p.number()] = made.chunk;
        p.send(first_of(p.number()));
        p.send(first_of(p.number()));
    };
    const auto run = [](dymelor::process &p, const dym_event &e) {
        counter &c = p.state().touch<counter>(chunk[p.number()]);
        c.sum = after(c.sum, e);
        if (e.kind > 0) p.send(sent_by(e, c.sum));
    };
    for (std::uint64_t period : {1, 2, 5}) {
        hopping model;
        try_model<hopping &>(model, model.chunk, period);
        try_model(dymelor::model_of(start, run), chunk, period);
    }
    try_refusals();
    try_failing_starts();
    return 0;
}
