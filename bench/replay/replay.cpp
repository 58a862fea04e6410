// Replays the steps of a file as `jlsrec replay` does, with std::deque and std::from_chars: replay SOURCES CAPACITY FILE.
// It reads the file whole, then all steps, then makes all replies, then writes their lines by way of a buffer of 8 KiB.
#include <charconv>
#include <cstdint>
#include <cstdio>
#include <cstdlib>
#include <deque>
#include <fstream>
#include <iterator>
#include <string>
#include <string_view>
#include <vector>

namespace {

struct Step {
    enum class Kind : std::uint8_t { put, close, take } kind;
    std::uint8_t source;
    std::uint64_t item;
};

struct Reply {
    enum class Kind : std::uint8_t { taken, closed, spent, full, now, already, job, empty, done } kind;
    std::uint8_t source;
    std::uint64_t number;
    std::uint64_t item;
};

struct Job {
    std::uint8_t source;
    std::uint64_t number;
    std::uint64_t item;
};

[[noreturn]] void stop(const char* why, std::size_t number) {
    std::fprintf(stderr, "replay: %s %zu\n", why, number);
    std::exit(1);
}

std::string_view next_word(std::string_view& line) {
    const auto begin = line.find_first_not_of(' ');
    if (begin == std::string_view::npos) {
        line = {};
        return {};
    }
    line.remove_prefix(begin);
    const auto end = line.find(' ');
    const auto word = line.substr(0, end);
    line.remove_prefix(word.size());
    return word;
}

template <typename Number>
bool read_number(std::string_view word, Number& number) {
    const auto [end, fault] = std::from_chars(word.data(), word.data() + word.size(), number);
    return !word.empty() && fault == std::errc{} && end == word.data() + word.size();
}

std::vector<Step> read_steps(std::string_view text) {
    std::vector<Step> steps;
    for (std::size_t number = 1; !text.empty(); ++number) {
        const auto end = text.find('\n');
        auto line = text.substr(0, end);
        text.remove_prefix(end == std::string_view::npos ? text.size() : end + 1);
        const auto first = next_word(line), second = next_word(line), third = next_word(line), fourth = next_word(line);
        Step step{Step::Kind::take, 0, 0};
        if (first.empty()) continue;
        if (first == "put" && fourth.empty() && read_number(second, step.source) && read_number(third, step.item)) {
            step.kind = Step::Kind::put;
        } else if (first == "close" && third.empty() && read_number(second, step.source)) {
            step.kind = Step::Kind::close;
        } else if (first != "take" || !second.empty()) {
            stop("not a step: line", number);
        }
        steps.push_back(step);
    }
    return steps;
}

std::vector<Reply> replay(std::size_t sources, std::size_t capacity, const std::vector<Step>& steps) {
    for (std::size_t number = 0; number < steps.size(); ++number) {
        if (steps[number].kind != Step::Kind::take && steps[number].source >= sources) stop("no such source: step", number);
    }
    std::vector<std::uint64_t> counts(sources);
    std::vector<bool> closed(sources);
    std::deque<Job> held;
    std::vector<Reply> replies;
    replies.reserve(steps.size());
    std::size_t open = sources;
    for (const auto& step : steps) {
        Reply reply{Reply::Kind::done, step.source, 0, 0};
        switch (step.kind) {
        case Step::Kind::put:
            if (closed[step.source]) {
                reply.kind = Reply::Kind::closed;
            } else if (counts[step.source] == UINT64_MAX) {
                reply.kind = Reply::Kind::spent;
            } else if (held.size() == capacity) {
                reply.kind = Reply::Kind::full;
            } else {
                reply.kind = Reply::Kind::taken;
                reply.number = counts[step.source]++;
                held.push_back({step.source, reply.number, step.item});
            }
            break;
        case Step::Kind::close:
            reply.kind = closed[step.source] ? Reply::Kind::already : Reply::Kind::now;
            reply.number = counts[step.source];
            if (!closed[step.source]) --open;
            closed[step.source] = true;
            break;
        case Step::Kind::take:
            if (held.empty()) {
                reply.kind = open == 0 ? Reply::Kind::done : Reply::Kind::empty;
            } else {
                const auto job = held.front();
                held.pop_front();
                reply = {Reply::Kind::job, job.source, job.number, job.item};
            }
            break;
        }
        replies.push_back(reply);
    }
    return replies;
}

class Lines {
public:
    void put(std::string_view text) {
        for (const char c : text) buffer[filled++] = c;
    }
    void put(std::uint64_t number) { filled = std::to_chars(buffer + filled, buffer + sizeof buffer, number).ptr - buffer; }
    void end() {
        put("\n");
        if (filled > sizeof buffer - 64) flush();
    }
    void flush() {
        if (std::fwrite(buffer, 1, filled, stdout) != filled) stop("output failed", 0);
        filled = 0;
    }

private:
    char buffer[8192];
    std::size_t filled = 0;
};

void print_replies(const std::vector<Reply>& replies) {
    Lines lines;
    for (const auto& reply : replies) {
        switch (reply.kind) {
        case Reply::Kind::taken: lines.put("taken "), lines.put(reply.number); break;
        case Reply::Kind::closed: lines.put("closed"); break;
        case Reply::Kind::spent: lines.put("spent"); break;
        case Reply::Kind::full: lines.put("full"); break;
        case Reply::Kind::now: lines.put("now "), lines.put(reply.number); break;
        case Reply::Kind::already: lines.put("already "), lines.put(reply.number); break;
        case Reply::Kind::job:
            lines.put("job "), lines.put(reply.source), lines.put(" "), lines.put(reply.number), lines.put(" "), lines.put(reply.item);
            break;
        case Reply::Kind::empty: lines.put("empty"); break;
        case Reply::Kind::done: lines.put("done"); break;
        }
        lines.end();
    }
    lines.flush();
}

}  // namespace

int main(int count, char** words) {
    if (count != 4) stop("words wanted:", 3);
    std::ifstream file(words[3], std::ios::binary);
    const std::string text{std::istreambuf_iterator<char>(file), {}};
    print_replies(replay(std::strtoul(words[1], nullptr, 10), std::strtoul(words[2], nullptr, 10), read_steps(text)));
}
