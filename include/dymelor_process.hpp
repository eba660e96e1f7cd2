/*
 * dymelor_process.hpp: the calls of dymelor_process.h for C++17, header only.
 *
 * dymelor::process is a dym_process that its destructor closes, with its state as a dymelor::object. A model is any class with
 *
 *     void start(dymelor::process &p);                         makes the state in p.state(), and sends the first events
 *     void run(dymelor::process &p, const dym_event &event);   runs an event
 *
 * or the two closures that dymelor::model_of makes one of. As in dymelor.hpp a call that isn't done throws dymelor::refused, and the same call with
 * try_ before its name answers the status.
 *
 * What dymelor_process.h says that the program owes, C++ owes too: a model's answer depends on nothing but the process's number, the event and
 * the state, and so the model's own members don't change from event to event; and the logs of p.state() are the process's. Where a model throws
 * at an event, that stays handed out: the process can only be closed then. Where it throws at the start, the process is closed again. A process has
 * no save and no load; dymelor_process.h says how one is opened anew.
 */
#ifndef DYMELOR_PROCESS_HPP
#define DYMELOR_PROCESS_HPP

#include "dymelor.hpp"
#include "dymelor_process.h"

#include <array>
#include <optional>

/* Whether a call may throw. */
#if defined(__cpp_exceptions) || defined(__EXCEPTIONS) || defined(_CPPUNWIND)
#define DYM_THROWS 1
#else
#define DYM_THROWS 0
#endif

namespace dymelor {

/* A model of two closures. */
template <class Start, class Run> struct closures {
    Start start;
    Run run;
};

template <class Start, class Run> closures<Start, Run> model_of(Start start, Run run)
{
    return {std::move(start), std::move(run)};
}

class process {
public:
    /* A closed process. */
    process() noexcept = default;
    process(const process &) = delete;
    process &operator=(const process &) = delete;
    ~process() { close(); }

    bool is_open() const noexcept { return inside_ != nullptr; }
    std::uint32_t number() const noexcept { return number_; }

    /* The state. It is at one address as long as this process is, so that a dymelor::resource may be made over it. */
    object &state() noexcept { return state_; }
    const object &state() const noexcept { return state_; }

    /* Opens a closed process, and has the model start it: dym_process_open and, for the end of the start, dym_process_end. Where that end is
     * refused, or the model throws, the process is closed again. */
    template <class Model> DYM_NODISCARD dym_status try_open(const dym_process_config &config, Model &model)
    {
        dym_status status = call([&](dym_process *c) { return dym_process_open(c, &config); });
        if (status != DYM_DONE) return status;
        unstarted rest{this};
        number_ = config.number;
        model.start(*this);
        status = call(dym_process_end);
        if (status == DYM_DONE) rest.of = nullptr;
        return status;
    }

    /* Frees all memory of the process and its state. */
    void close() noexcept
    {
        if (is_open()) call(dym_process_close);
    }

    /* Takes a message; how many events were undone is told: dym_process_take. */
    DYM_NODISCARD dym_status try_take(const dym_message &message, std::uint64_t *undone = nullptr) noexcept
    {
        return call([&](dym_process *c) { return dym_process_take(c, &message, undone); });
    }

    /* Has the model run the next event, after those that are to be run once more: dym_process_begin. DYM_NONE: there is none, and the state is
     * what all events that are run made of it. */
    template <class Model> DYM_NODISCARD dym_status try_run(Model &model, dym_event *told = nullptr)
    {
        dym_event event;
        std::uint32_t how = DYM_REPLAYED;
        while ((how & DYM_REPLAYED) != 0) {
            dym_status status = call([&](dym_process *c) { return dym_process_begin(c, &event, &how); });
            if (status == DYM_DONE) status = run_one(model, event);
            if (status != DYM_DONE) return status;
        }
        if (told != nullptr) *told = event;
        return DYM_DONE;
    }

    /* Has the model run what is to be run once more, and nothing else, so that the state is what all events that are run made of it. */
    template <class Model> DYM_NODISCARD dym_status try_settle(Model &model)
    {
        dym_event event;
        for (;;) {
            dym_status status = call([&](dym_process *c) { return dym_process_replay(c, &event, nullptr); });
            if (status == DYM_NONE) return DYM_DONE;
            if (status == DYM_DONE) status = run_one(model, event);
            if (status != DYM_DONE) return status;
        }
    }

    /* Sends an event: of a model, for the event that it runs or for the start. DYM_NOT_LATER, DYM_NO_PROCESS. */
    DYM_NODISCARD dym_status try_send(const dym_event &event) noexcept
    {
        return call([&](dym_process *c) { return dym_process_send(c, &event); });
    }

    /* Hands each message that is to be delivered to a function, and takes it out: dym_process_outbox. The function may not throw: what was taken
     * out with the message that it threw at, up to 63 others, would be lost. */
    template <class Deliver> DYM_NODISCARD dym_status try_deliver(Deliver deliver)
    {
        std::array<dym_message, 64> piece;
        std::uint64_t count = 0;
        do {
            const dym_status status = call([&](dym_process *c) { return dym_process_outbox(c, piece.data(), piece.size(), &count); });
            if (status != DYM_DONE) return status;
            for (std::size_t k = 0; k < count; k++) deliver(piece[k]);
        } while (count == piece.size());
        return DYM_DONE;
    }

    /* Commits what is before a bound, and hands each event that was committed to a function: dym_process_commit. The function may not
     * throw: the events that it hasn't seen by then would be handed to none. */
    template <class Seen> DYM_NODISCARD dym_status try_commit(std::uint64_t bound, Seen seen)
    {
        std::array<dym_event, 128> piece;
        std::uint64_t count = 0;
        dym_status status = call([&](dym_process *c) { return dym_process_commit(c, bound, nullptr); });
        if (status != DYM_DONE) return status;
        do {
            status = call([&](dym_process *c) { return dym_process_committed(c, piece.data(), piece.size(), &count); });
            if (status != DYM_DONE) return status;
            for (std::size_t k = 0; k < count; k++) seen(piece[k]);
        } while (count == piece.size());
        return DYM_DONE;
    }

    /* The time of the next event that isn't run yet. */
    std::optional<std::uint64_t> next() noexcept
    {
        std::uint64_t time = 0;
        const dym_status status = call([&](dym_process *c) { return dym_process_next(c, &time); });
        if (status != DYM_DONE) return std::nullopt;
        return time;
    }

    /* How far the process is; of a closed one all is 0. */
    dym_progress progress() noexcept
    {
        dym_progress progress{};
        if (is_open()) static_cast<void>(call([&](dym_process *c) { return dym_process_progress(c, &progress); }));
        return progress;
    }

    /* From now on a log is taken after so many events. */
    DYM_NODISCARD dym_status try_period(std::uint64_t period) noexcept
    {
        return call([&](dym_process *c) { return dym_process_period(c, period); });
    }

#if DYM_THROWS
    /* ---- the same calls, which throw what is refused */

    template <class Model> process(const dym_process_config &config, Model &model) : process() { done(try_open(config, model)); }

    std::uint64_t take(const dym_message &message)
    {
        std::uint64_t undone = 0;
        done(try_take(message, &undone));
        return undone;
    }

    /* The event that was run, or nothing where none is to be run. */
    template <class Model> std::optional<dym_event> run(Model &model)
    {
        dym_event event;
        const dym_status status = try_run(model, &event);
        if (status == DYM_NONE) return std::nullopt;
        done(status);
        return event;
    }

    template <class Model> void settle(Model &model) { done(try_settle(model)); }
    void send(const dym_event &event) { done(try_send(event)); }
    template <class Deliver> void deliver(Deliver deliver) { done(try_deliver(std::move(deliver))); }
    template <class Seen> void commit(std::uint64_t bound, Seen seen) { done(try_commit(bound, std::move(seen))); }
    void commit(std::uint64_t bound)
    {
        commit(bound, [](const dym_event &) {});
    }
    void period(std::uint64_t period) { done(try_period(period)); }
#endif

private:
    /* A process whose start isn't ended yet: it is closed where that is refused, or the model throws. */
    struct unstarted {
        process *of;
        ~unstarted()
        {
            if (of != nullptr) of->close();
        }
    };

    /* The object is the state's between the calls, and the process's while one runs: a copy takes its place. */
    template <class Call> dym_status call(Call function)
    {
        dym_process c{*state_.c(), inside_};
        const dym_status status = function(&c);
        *state_.c() = c.object;
        inside_ = c.inside;
        return status;
    }

    template <class Model> dym_status run_one(Model &model, const dym_event &event)
    {
        model.run(*this, event);
        return call(dym_process_end);
    }

    object state_;
    void *inside_ = nullptr;
    std::uint32_t number_ = 0;
};

} // namespace dymelor

#undef DYM_THROWS

#endif
