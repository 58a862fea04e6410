// Passes jobs of a number each through a bounded queue, from four threads to four others, as `ls_bench queue` does: queue [JOBS].
// The queue is a mutex, two condition variables and a std::deque. What it prints to standard output is the same in each run;
// times go to standard error.
#include <chrono>
#include <condition_variable>
#include <cstddef>
#include <cstdint>
#include <cstdio>
#include <cstdlib>
#include <deque>
#include <mutex>
#include <optional>
#include <thread>
#include <vector>

namespace {

constexpr std::uint8_t sources = 4;
constexpr int workers = 4;

struct Job {
    std::uint8_t source;
    std::uint64_t number;
    std::uint64_t item;
};

class Queue {
public:
    explicit Queue(std::size_t capacity) : capacity_(capacity) {}

    void put(const Job& job) {
        std::unique_lock lock(mutex_);
        room_.wait(lock, [this] { return held_.size() < capacity_; });
        held_.push_back(job);
        lock.unlock();
        some_.notify_one();
    }

    void finish() {
        {
            std::lock_guard lock(mutex_);
            finished_ = true;
        }
        some_.notify_all();
    }

    // A job, or none once the queue is finished and empty.
    std::optional<Job> take() {
        std::unique_lock lock(mutex_);
        some_.wait(lock, [this] { return !held_.empty() || finished_; });
        if (held_.empty()) return std::nullopt;
        const Job job = held_.front();
        held_.pop_front();
        lock.unlock();
        room_.notify_one();
        return job;
    }

private:
    const std::size_t capacity_;
    std::mutex mutex_;
    std::condition_variable room_;
    std::condition_variable some_;
    std::deque<Job> held_;
    bool finished_ = false;
};

void measure(std::size_t capacity, std::uint64_t items) {
    const auto start = std::chrono::steady_clock::now();
    Queue queue(capacity);
    std::mutex total;
    std::uint64_t jobs = 0, sum = 0;
    std::vector<std::thread> putting, taking;
    for (int worker = 0; worker < workers; ++worker)
        taking.emplace_back([&] {
            std::uint64_t my_jobs = 0, my_sum = 0;
            while (const auto job = queue.take()) {
                ++my_jobs;
                my_sum += job->item;
            }
            std::lock_guard lock(total);
            jobs += my_jobs;
            sum += my_sum;
        });
    for (std::uint8_t source = 0; source < sources; ++source)
        putting.emplace_back([&queue, source, items] {
            for (std::uint64_t number = 0; number < items; ++number) queue.put({source, number, number});
        });
    for (auto& thread : putting) thread.join();
    queue.finish();
    for (auto& thread : taking) thread.join();
    const std::chrono::duration<double, std::nano> took = std::chrono::steady_clock::now() - start;
    std::printf("capacity %zu: %ju jobs, sum %ju\n", capacity, std::uintmax_t{jobs}, std::uintmax_t{sum});
    if (jobs != 0) std::fprintf(stderr, "capacity %zu: %.3f ns a job\n", capacity, took.count() / static_cast<double>(jobs));
}

}  // namespace

int main(int count, char** words) {
    const unsigned long jobs = count > 1 ? std::strtoul(words[1], nullptr, 10) : 1'000'000;
    for (const std::size_t capacity : {8, 256}) measure(capacity, jobs / sources);
}
