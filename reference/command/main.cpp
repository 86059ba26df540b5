// The program: words, then the answer. The README has all words.
#include <csignal>
#include <cstdlib>

#include "command/commands.h"

namespace {

// Takes the words out that only this program knows, wherever they stand.
Words take_own_options(const Words& words, Line& own) {
    Words rest;
    for (size_t k = 0; k < words.size(); k++) {
        const std::string& word = words[k];
        bool plays_events = words[0] == "splitrun" || words[0] == "inorder";
        if (word == "--trace") {
            own.tells_commits = true;
        } else if (word == "--check") {
            own.checks = true;
        } else if (word == "--orders") {
            own.tells_orders = true;
        } else if (word == "--noskip") {
            own.walks_idle_cycles = true;
        } else if (word == "--seed" && plays_events && k + 1 < words.size()) {
            own.random_seed = strtoull(words[++k].c_str(), nullptr, 10);
        } else if (word == "--dump-mem" && k + 2 < words.size()) {
            own.dump = Line::Dump{(uint32_t)strtoul(words[k + 1].c_str(), nullptr, 16),
                                  (uint32_t)strtoul(words[k + 2].c_str(), nullptr, 0)};
            k += 2;
        } else {
            rest.push_back(word);
        }
    }
    return rest;
}

Answer answer_words(const Words& words) {
    Line own;
    auto line = read_line(take_own_options(words, own));
    if (!line) throw Refusal{status::usage, usage};
    line->checks = own.checks;
    line->tells_commits = own.tells_commits;
    line->tells_orders = own.tells_orders;
    line->walks_idle_cycles = own.walks_idle_cycles;
    line->random_seed = own.random_seed;
    line->dump = own.dump;
    return answer_line(*line);
}

}  // namespace

int main(int count, char** arguments) {
    signal(SIGPIPE, SIG_IGN);
    Words words(arguments + 1, arguments + count);
    try {
        if (auto status = answer_own_words(words)) return *status;
        Answer answer = answer_words(words);
        return write_out(answer.text) ? answer.status : status::write_fault;
    } catch (Refusal& refusal) {
        write_out("fast: " + refusal.line + "\n");
        return refusal.status;
    }
}
