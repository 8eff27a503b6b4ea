// Two cores with store buffers over one memory, with the monitor beside them: each access is reported when it is executed, and the
// simulator stops at the first one that no interleaving explains.
#include "scm.h"

#include <array>
#include <cstdio>
#include <cstdlib>
#include <deque>
#include <optional>
#include <random>
#include <stdexcept>
#include <string>
#include <vector>

namespace {

constexpr unsigned CORES = 2;
const std::array<const char *, 2> CELLS = {"x", "y"};

// The monitor, with one session and one trace.
class Monitor {
  scm_monitor monitor_{};
  std::size_t session_, trace_;
  std::vector<std::size_t> cells_;

public:
  Monitor() {
    if (scm_make(&monitor_) != SCM_DONE)
      throw std::runtime_error("no memory");
    session_ = scm_number(&monitor_, "sim");
    trace_ = scm_number(&monitor_, "run");
    std::vector<scm_cell> declared;
    for (const char *cell : CELLS) {
      cells_.push_back(scm_number(&monitor_, cell));
      declared.push_back({cells_.back(), 32, 0, 0});
    }
    checked(scm_open(&monitor_, session_, trace_, CORES, 1000000, declared.data(), declared.size()));
    for (unsigned core = 0; core < CORES; core++)
      checked(scm_claim(&monitor_, session_, trace_, core));
  }
  ~Monitor() { scm_free(&monitor_); }
  Monitor(const Monitor &) = delete;
  Monitor &operator=(const Monitor &) = delete;

  static void checked(std::uint32_t code) {
    if (code != SCM_DONE)
      throw std::runtime_error("the monitor answers " + std::to_string(code));
  }

  // The reply to a line, without its line feed.
  std::string say(const std::string &line) {
    std::vector<char> reply(64);
    std::size_t needed = 0;
    std::uint32_t code = scm_say(&monitor_, line.c_str(), reply.data(), reply.size(), &needed);
    if (code == SCM_NO_ROOM) {
      reply.resize(needed);
      code = scm_text(&monitor_, reinterpret_cast<std::uint8_t *>(reply.data()), reply.size(), &needed);
    }
    checked(code);
    return std::string(reply.data(), needed == 0 ? 0 : needed - 1);
  }

  void report(unsigned core, std::uint32_t access, unsigned cell, std::uint32_t value) {
    checked(scm_report(&monitor_, session_, trace_, core, access, cells_[cell], value, 0));
  }

  // In the order of happening the first other verdict, also `undecided`, is of what went wrong.
  bool is_explained() { return scm_ask(&monitor_, session_, trace_) == SCM_CONSISTENT; }
};

struct Store {
  unsigned cell;
  std::uint32_t value;
};

// A core sees its own stores at once; the other one sees them when they have left the buffer.
class Machine {
  std::array<std::uint32_t, CELLS.size()> memory_{};
  std::array<std::deque<Store>, CORES> buffers_;
  std::size_t room_;

public:
  explicit Machine(std::size_t room) : room_(room) {}

  bool drain(unsigned core) {
    if (buffers_[core].empty())
      return false;
    memory_[buffers_[core].front().cell] = buffers_[core].front().value;
    buffers_[core].pop_front();
    return true;
  }

  void fence(unsigned core) {
    while (drain(core))
      ;
  }

  void store(unsigned core, Store store) {
    buffers_[core].push_back(store);
    while (buffers_[core].size() > room_)
      drain(core);
  }

  std::uint32_t load(unsigned core, unsigned cell) const {
    for (auto store = buffers_[core].rbegin(); store != buffers_[core].rend(); ++store)
      if (store->cell == cell)
        return store->value;
    return memory_[cell];
  }
};

struct Options {
  std::size_t room = 2;
  unsigned steps = 2000;
  unsigned seed = 1;
  bool is_fenced = false;
};

// One access of a core at random; the step's number where it can't be explained.
std::optional<unsigned> run(const Options &options, Monitor &monitor) {
  Machine machine(options.room);
  std::mt19937 random(options.seed);
  std::uint32_t next_value = 1;
  for (unsigned step = 0; step < options.steps; step++) {
    unsigned core = random() % CORES, cell = random() % CELLS.size();
    if (random() % 8 == 0)
      machine.drain(random() % CORES);
    if (random() % 2 == 0) {
      machine.store(core, {cell, next_value});
      monitor.report(core, SCM_SW, cell, next_value);
      std::printf("%u: core %u: sw %s %u\n", step, core, CELLS[cell], next_value++);
      if (options.is_fenced)
        machine.fence(core);
    } else {
      std::uint32_t value = machine.load(core, cell);
      monitor.report(core, SCM_LW, cell, value);
      std::printf("%u: core %u: lw %s %u\n", step, core, CELLS[cell], value);
    }
    if (!monitor.is_explained())
      return step;
  }
  return std::nullopt;
}

Options options_of(int words, char **word) {
  Options options;
  if (words > 1)
    options.room = std::strtoul(word[1], nullptr, 10);
  if (words > 2)
    options.seed = static_cast<unsigned>(std::strtoul(word[2], nullptr, 10));
  options.is_fenced = words > 3 && std::string(word[3]) == "fenced";
  return options;
}

} // namespace

// simulator [STORES_IN_A_BUFFER [SEED [fenced]]]
int main(int words, char **word) {
  try {
    Options options = options_of(words, word);
    Monitor monitor;
    std::optional<unsigned> step = run(options, monitor);
    if (!step) {
      std::printf("%u accesses: each is explained\n", options.steps);
      return 0;
    }
    std::printf("access %u can't be explained: %s\n", *step, monitor.say("sim cycle run").c_str());
    return 5;
  } catch (const std::exception &error) {
    std::fprintf(stderr, "simulator: %s\n", error.what());
    return 1;
  }
}
