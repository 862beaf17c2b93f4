// The atomic operations that steps of a seat of the shared table are, over and over on one word each. It prints the
// nanoseconds of: claims that find the word taken, takes of what nobody posted, loads, and turns of a block that is
// taken out of its slot and put back.
#include <atomic>
#include <chrono>
#include <cstdint>
#include <cstdio>
#include <cstdlib>
#include <utility>
#include <vector>

namespace {

using Clock = std::chrono::steady_clock;
using Word = std::atomic<uint64_t>;

struct Block {
  uint32_t tag = 0;
  bool struck = false;
  std::vector<int64_t> cells;
};

// Keeps what was read from being left out.
template <typename T> void used(const T& x) { asm volatile("" : : "r,m"(x) : "memory"); }

[[gnu::noinline]] void claims(Word& word, uint32_t many) {
  for (uint32_t i = 0; i < many; i++) {
    uint64_t found = 0;
    used(word.compare_exchange_strong(found, 2));
    used(found);
  }
}

[[gnu::noinline]] void takes(Word& word, uint32_t many) {
  for (uint32_t i = 0; i < many; i++) used(word.exchange(0));
}

[[gnu::noinline]] void loads(Word& word, uint32_t many) {
  for (uint32_t i = 0; i < many; i++) used(word.load());
}

[[gnu::noinline]] void turns(Word& word, Block& slot, uint32_t many) {
  for (uint32_t i = 0; i < many; i++) {
    uint64_t found = 0;
    if (!word.compare_exchange_strong(found, 1)) continue;
    Block mine = std::move(slot);
    used(&mine);
    slot = std::move(mine);
    used(word.exchange(0));
  }
}

template <typename Run> long long nanoseconds(Run run) {
  auto start = Clock::now();
  run();
  return std::chrono::duration_cast<std::chrono::nanoseconds>(Clock::now() - start).count();
}

}  // namespace

int main(int argc, char** argv) {
  uint32_t many = argc > 1 ? uint32_t(std::strtoul(argv[1], nullptr, 10)) : 1'000'000;
  alignas(64) static Word claimed, posted, pending, turn;
  Block slot;
  slot.cells.resize(1);
  auto a = nanoseconds([&] { claims(claimed, many); });
  auto b = nanoseconds([&] { takes(posted, many); });
  auto c = nanoseconds([&] { loads(pending, many); });
  auto d = nanoseconds([&] { turns(turn, slot, many); });
  std::printf("%lld %lld %lld %lld\n", a, b, c, d);
}
