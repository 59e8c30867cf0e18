// A long question: by plan in portions, on a thread that counts the rows, while a child process answers by
// loops, which is one call that nothing stops but the end of its process. Both can be stopped at any time,
// and other questions are answered meanwhile.
#ifndef SHORE_JOB_H
#define SHORE_JOB_H

#include <atomic>
#include <chrono>
#include <cstdio>
#include <memory>
#include <thread>

#include <csignal>
#include <sys/mman.h>
#include <sys/wait.h>
#include <unistd.h>

#include "ask.h"

namespace shore {

// Words that are memory only where they are used; shared with a child.
class Mapped {
  public:
    explicit Mapped(std::size_t words) : words_(words == 0 ? 1 : words), count_(words) {
        void *at = mmap(nullptr, words_ * sizeof(std::int64_t), PROT_READ | PROT_WRITE,
                        MAP_SHARED | MAP_ANONYMOUS | MAP_NORESERVE, -1, 0);
        first_ = at == MAP_FAILED ? nullptr : static_cast<std::int64_t *>(at);
        count_ = first_ == nullptr ? 0 : count_;
    }
    ~Mapped() {
        if (first_ != nullptr) {
            munmap(first_, words_ * sizeof(std::int64_t));
        }
    }
    Mapped(const Mapped &) = delete;
    Mapped &operator=(const Mapped &) = delete;
    std::int64_t *first() const { return first_; }
    std::size_t count() const { return count_; }

  private:
    std::size_t words_;
    std::size_t count_;
    std::int64_t *first_;
};

// Answering by loops in a child. Its number and length stand ahead of the words.
class Child {
  public:
    Child(const Packed &over, const Bytes &question, const Lent &lent) : shared_(lent.answer + ahead) {
        std::vector<std::uint64_t> scratch(lent.scratch);
        // What waits to be written is written once.
        std::fflush(stdout);
        pid_ = shared_.count() == 0 ? -1 : fork();
        if (pid_ == 0) {
            // Nothing but the call: another thread may have held a lock when this one was made.
            std::int64_t *words = shared_.first();
            const auto result = dislogha::answer_by_loops(
                span_of(over.data), span_of(over.calendars), span_of(question), {scratch.data(), scratch.size()},
                {words + ahead, shared_.count() - ahead});
            words[0] = static_cast<std::int64_t>(result.refusal);
            words[1] = static_cast<std::int64_t>(result.length);
            _exit(0);
        }
    }
    ~Child() { stop(); }
    Child(const Child &) = delete;
    Child &operator=(const Child &) = delete;

    bool started() const { return pid_ > 0 || ended_; }
    // Whether it has ended by itself.
    bool ended() {
        int status = 0;
        if (!ended_ && pid_ > 0 && waitpid(pid_, &status, WNOHANG) == pid_) {
            whole_ = WIFEXITED(status) && WEXITSTATUS(status) == 0;
            pid_ = -1;
            ended_ = true;
        }
        return ended_;
    }
    void stop() {
        if (pid_ > 0) {
            kill(pid_, SIGKILL);
            waitpid(pid_, nullptr, 0);
            pid_ = -1;
            ended_ = true;
        }
    }
    // Whether it answered, and was not ended by another.
    bool whole() const { return whole_; }
    Words words() const {
        const std::int64_t *words = shared_.first();
        return {static_cast<std::uint64_t>(words[0]),
                std::vector<std::int64_t>(words + ahead, words + ahead + words[1])};
    }

  private:
    static constexpr std::size_t ahead = 2;
    Mapped shared_;
    pid_t pid_ = -1;
    bool ended_ = false;
    bool whole_ = false;
};

class Job {
  public:
    Job(Reply reply, const Lent &lent, std::uint64_t rows)
        : reply_(std::move(reply)), lent_(lent), rows_(rows),
          most_(2 * most_offered(reply_.steps, reply_.question->stored.tables)), answer_(lent.answer),
          loops_(reply_.over, reply_.question->bytes, lent), plan_([this] { portions(); }) {}
    ~Job() { stop(); }
    Job(const Job &) = delete;
    Job &operator=(const Job &) = delete;

    const std::string &typed() const { return reply_.question->typed; }
    // Rows offered so far, of at most so many.
    std::uint64_t offered() const { return offered_; }
    double most() const { return most_; }
    double seconds() const {
        return std::chrono::duration<double>(std::chrono::steady_clock::now() - start_).count();
    }
    // Whether both ways have ended.
    bool ended() { return planned_ && (loops_.ended() || !loops_.started()); }
    // At once, by plan after the portion that is under way.
    void stop() {
        stopped_ = true;
        loops_.stop();
        if (plan_.joinable()) {
            plan_.join();
        }
    }
    // Whether both ways gave something: else the machine did not lend what was asked, or one was ended.
    bool whole() const { return planned_ && loops_.whole(); }
    // What both ways gave, once they have ended.
    Reply take() {
        plan_.join();
        reply_.plan = {number_, std::vector<std::int64_t>(answer_.first(), answer_.first() + length_)};
        reply_.loops = loops_.whole() ? loops_.words() : Words{};
        settle(reply_);
        return std::move(reply_);
    }

  private:
    void portions() {
        std::vector<std::uint64_t> scratch(lent_.scratch);
        const dislogha::Words words{scratch.data(), scratch.size()};
        const dislogha::Answer answer{answer_.first(), answer_.count()};
        const auto data = span_of(reply_.over.data);
        const auto calendars = span_of(reply_.over.calendars);
        number_ = static_cast<std::uint64_t>(
            dislogha::begin(data, calendars, span_of(reply_.question->bytes), words).refusal);
        bool due = number_ == 0;
        while (due && !stopped_) {
            const auto portion = dislogha::portion(data, calendars, words, answer, rows_);
            offered_ += portion.offered;
            number_ = static_cast<std::uint64_t>(portion.refusal);
            length_ = portion.length;
            due = portion.unfinished();
        }
        planned_ = !due;
    }

    Reply reply_;
    const Lent lent_;
    const std::uint64_t rows_;
    const double most_;
    const std::chrono::steady_clock::time_point start_ = std::chrono::steady_clock::now();
    Mapped answer_;
    std::atomic<std::uint64_t> offered_{0};
    std::atomic<bool> stopped_{false};
    std::atomic<bool> planned_{false};
    std::uint64_t number_ = 0;
    std::uint64_t length_ = 0;
    Child loops_;
    std::thread plan_;
};

} // namespace shore

#endif
