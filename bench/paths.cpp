// Times the kernels of tiles and the reading of a matrix beside C++ in one run, by processor time. Each round times all of
// them in turn, and each ratio is the median of the ratios within a round, so that a busy machine weighs on both sides alike.
#include <algorithm>
#include <cstdint>
#include <cstdio>
#include <cstdlib>
#include <functional>
#include <optional>
#include <random>
#include <string>
#include <string_view>
#include <vector>

#include <nmmintrin.h>
#include <time.h>

// A slice of Rattle's crosses as a pointer and a length.
extern "C" {
void bench_paths_min_plus(int64_t* out, size_t out_length, const int64_t* a, size_t a_length, const int64_t* b,
                      size_t b_length, size_t side);
void bench_paths_min_plus_plain(int64_t* out, size_t out_length, const int64_t* a, size_t a_length, const int64_t* b,
                            size_t b_length, size_t side);
void bench_paths_close_tile(int64_t* out, size_t out_length, size_t side);
uint64_t bench_paths_read_matrix(const uint8_t* text, size_t length);
}

namespace {

constexpr int64_t none = INT64_MAX;
constexpr size_t side = 32;
using Tile = std::vector<int64_t>;

// ---- the kernels in C++

[[gnu::noinline]] void plain_min_plus(int64_t* __restrict out, const int64_t* __restrict a,
                                      const int64_t* __restrict b, size_t n) {
  for (size_t i = 0; i < n; i++)
    for (size_t j = 0; j < n; j++) {
      int64_t least = out[i * n + j];
      for (size_t k = 0; k < n; k++) {
        int64_t x = a[i * n + k], y = b[k * n + j];
        int64_t way = x > none - y ? none : x + y;
        if (way < least) least = way;
      }
      out[i * n + j] = least;
    }
}

// By rows of b, which compilers turn into lanes. The sums are unsigned, so they never overflow.
[[gnu::noinline]] void row_min_plus(int64_t* __restrict out, const int64_t* __restrict a,
                                    const int64_t* __restrict b, size_t n) {
  for (size_t i = 0; i < n; i++)
    for (size_t k = 0; k < n; k++) {
      uint64_t x = uint64_t(a[i * n + k]);
      for (size_t j = 0; j < n; j++) {
        uint64_t way = x + uint64_t(b[k * n + j]), old = uint64_t(out[i * n + j]);
        out[i * n + j] = int64_t(way < old ? way : old);
      }
    }
}

__m128i load(const int64_t* at) { return _mm_loadu_si128(reinterpret_cast<const __m128i*>(at)); }
void store(int64_t* at, __m128i lanes) { _mm_storeu_si128(reinterpret_cast<__m128i*>(at), lanes); }
__m128i lesser(__m128i x, __m128i y) { return _mm_blendv_epi8(x, y, _mm_cmpgt_epi64(x, y)); }

// By hand: 16 columns of a row stay in registers. The top bit is flipped, so that sums of two weights compare as signed.
[[gnu::noinline]] void lane_min_plus(int64_t* __restrict out, const int64_t* __restrict a,
                                     const int64_t* __restrict b, size_t n) {
  const __m128i top = _mm_set1_epi64x(INT64_MIN);
  for (size_t i = 0; i < n; i++)
    for (size_t j = 0; j + 16 <= n; j += 16) {
      __m128i least[8];
      for (int l = 0; l < 8; l++) least[l] = _mm_xor_si128(load(out + i * n + j + 2 * l), top);
      for (size_t k = 0; k < n; k++) {
        __m128i way = _mm_xor_si128(_mm_set1_epi64x(a[i * n + k]), top);
        for (int l = 0; l < 8; l++)
          least[l] = lesser(least[l], _mm_add_epi64(way, load(b + k * n + j + 2 * l)));
      }
      for (int l = 0; l < 8; l++) store(out + i * n + j + 2 * l, _mm_xor_si128(least[l], top));
    }
}

// ---- a careful reader in C++, with the same refusals

struct Matrix {
  uint32_t vertices, side;
  std::vector<std::optional<uint32_t>> weights;
};

std::optional<std::string_view> next_line(std::string_view& text) {
  if (text.empty()) return std::nullopt;
  size_t end = text.find('\n');
  std::string_view line = text.substr(0, end);
  if (end == text.npos) {
    text = {};
    return line;
  }
  text.remove_prefix(end + 1);
  if (!line.empty() && line.back() == '\r') line.remove_suffix(1);
  return line;
}

std::optional<std::string_view> next_word(std::string_view& line) {
  size_t start = line.find_first_not_of(' ');
  if (start == line.npos) return std::nullopt;
  line.remove_prefix(start);
  size_t end = std::min(line.find(' '), line.size());
  std::string_view word = line.substr(0, end);
  line.remove_prefix(end);
  return word;
}

// A number of any length; those above 2^32 count as 2^32.
std::optional<uint64_t> number(std::string_view word) {
  if (word.empty()) return std::nullopt;
  uint64_t value = 0;
  for (char c : word) {
    if (c < '0' || c > '9') return std::nullopt;
    value = std::min<uint64_t>(value * 10 + uint64_t(c - '0'), uint64_t(1) << 32);
  }
  return value;
}

// The first line: a matrix without weights yet.
std::optional<Matrix> read_head(std::string_view& text) {
  auto head = next_line(text);
  if (!head) return std::nullopt;
  auto first = next_word(*head), second = next_word(*head);
  if (!first || !second || next_word(*head)) return std::nullopt;
  auto n = number(*first), s = number(*second);
  if (!n || !s || *n < 1 || *n > 512 || *s < 1 || *s > 32 || (*n + *s - 1) / *s > 16) return std::nullopt;
  Matrix matrix{uint32_t(*n), uint32_t(*s), {}};
  matrix.weights.reserve(*n * *n);
  return matrix;
}

std::optional<Matrix> read_matrix(std::string_view text) {
  auto matrix = read_head(text);
  if (!matrix) return std::nullopt;
  const uint64_t n = matrix->vertices;
  for (uint64_t i = 0; i < n; i++) {
    auto line = next_line(text);
    if (!line) return std::nullopt;
    for (uint64_t j = 0; j < n; j++) {
      auto word = next_word(*line);
      if (!word) return std::nullopt;
      std::optional<uint32_t> weight;
      if (*word != "-") {
        auto value = number(*word);
        if (!value || *value > 2147483647) return std::nullopt;
        weight = uint32_t(*value);
      }
      matrix->weights.push_back(i == j ? 0 : weight);
    }
    if (next_word(*line)) return std::nullopt;
  }
  while (auto line = next_line(text))
    if (next_word(*line)) return std::nullopt;  // the inputs here have no strikes
  return matrix;
}

// The same in one pass over the bytes of the rows.
std::optional<Matrix> read_in_one_pass(std::string_view text) {
  auto matrix = read_head(text);
  if (!matrix) return std::nullopt;
  const uint64_t n = matrix->vertices;
  const char *at = text.data(), *end = at + text.size();
  auto ends_line = [&] { return at == end || *at == '\n' || (*at == '\r' && at + 1 != end && at[1] == '\n'); };
  for (uint64_t i = 0; i < n; i++) {
    if (at == end) return std::nullopt;
    for (uint64_t j = 0; j < n; j++) {
      while (at != end && *at == ' ') at++;
      if (ends_line()) return std::nullopt;
      std::optional<uint32_t> weight;
      if (*at == '-') {
        at++;
      } else {
        uint64_t value = 0;
        const char* start = at;
        for (; at != end && uint8_t(*at - '0') < 10; at++)
          value = std::min<uint64_t>(value * 10 + uint64_t(*at - '0'), uint64_t(1) << 32);
        if (at == start || value > 2147483647) return std::nullopt;
        weight = uint32_t(value);
      }
      if (!ends_line() && *at != ' ') return std::nullopt;
      matrix->weights.push_back(i == j ? 0 : weight);
    }
    while (at != end && *at == ' ') at++;
    if (!ends_line()) return std::nullopt;
    if (at != end && *at == '\r') at++;
    if (at != end) at++;
  }
  text.remove_prefix(size_t(at - text.data()));
  while (auto line = next_line(text))
    if (next_word(*line)) return std::nullopt;  // the inputs here have no strikes
  return matrix;
}

[[gnu::noinline]] uint64_t sum_of(const std::optional<Matrix>& matrix) {
  if (!matrix) return 0;
  uint64_t sum = 0;
  for (const auto& weight : matrix->weights) sum += weight.value_or(1);
  return sum;
}

// ---- timing

double now() {
  timespec time;
  clock_gettime(CLOCK_THREAD_CPUTIME_ID, &time);
  return double(time.tv_sec) + double(time.tv_nsec) * 1e-9;
}

double median(std::vector<double> xs) {
  std::sort(xs.begin(), xs.end());
  return xs[xs.size() / 2];
}

struct Candidate {
  const char* name;
  std::function<void()> call;
  std::vector<double> seconds;
};

void measure(std::vector<Candidate>& all, int rounds, int calls) {
  for (int round = 0; round < rounds; round++)
    for (auto& c : all) {
      double start = now();
      for (int n = 0; n < calls; n++) c.call();
      c.seconds.push_back((now() - start) / calls);
    }
}

void print_ratio(const Candidate& ours, const Candidate& theirs, double limit) {
  std::vector<double> ratios;
  for (size_t r = 0; r < ours.seconds.size(); r++) ratios.push_back(ours.seconds[r] / theirs.seconds[r]);
  double least = *std::min_element(ours.seconds.begin(), ours.seconds.end()) /
                 *std::min_element(theirs.seconds.begin(), theirs.seconds.end());
  std::printf("%-28s / %-34s %6.2f  (of the least times %.2f)", ours.name, theirs.name, median(ratios), least);
  if (limit > 0) std::printf("  at most %.1f: %s", limit, median(ratios) <= limit ? "yes" : "NO");
  std::printf("\n");
}

void print_times(const std::vector<Candidate>& all) {
  for (const auto& c : all)
    std::printf("  %-38s median %9.2f us, least %9.2f us\n", c.name, median(c.seconds) * 1e6,
                *std::min_element(c.seconds.begin(), c.seconds.end()) * 1e6);
}

Tile random_tile(std::mt19937_64& random) {
  Tile tile(side * side);
  for (auto& weight : tile) weight = random() % 3 ? int64_t(random() % 1000000) : none;
  return tile;
}

void must(bool holds, const char* what) {
  if (holds) return;
  std::printf("%s differ\n", what);
  std::exit(1);
}

void kernels(int rounds) {
  std::mt19937_64 random(1);
  const Tile a = random_tile(random), b = random_tile(random), old = random_tile(random);
  Tile ours = old, plain = old, rows = old, lanes = old, walk = old;
  const size_t length = side * side;
  std::vector<Candidate> all{
      {"min_plus", [&] { bench_paths_min_plus(ours.data(), length, a.data(), length, b.data(), length, side); }, {}},
      {"min_plus_plain", [&] { bench_paths_min_plus_plain(ours.data(), length, a.data(), length, b.data(), length, side); }, {}},
      {"close_tile", [&] { bench_paths_close_tile(walk.data(), length, side); }, {}},
      {"C++ plain loop, saturating", [&] { plain_min_plus(plain.data(), a.data(), b.data(), side); }, {}},
      {"C++ by rows, compiler's lanes", [&] { row_min_plus(rows.data(), a.data(), b.data(), side); }, {}},
      {"C++ by hand, SSE4.2 intrinsics", [&] { lane_min_plus(lanes.data(), a.data(), b.data(), side); }, {}},
  };
  for (auto& c : all) c.call();
  must(ours == plain && ours == rows && ours == lanes, "products");
  measure(all, 5 * rounds, 40);
  print_times(all);
  print_ratio(all[0], all[5], 0);
  print_ratio(all[0], all[4], 0);
  print_ratio(all[0], all[3], 0);
  print_ratio(all[1], all[3], 0);
  print_ratio(all[2], all[0], 1.7);
}

std::string matrix_of(size_t n, uint64_t greatest, unsigned missing) {
  std::mt19937_64 random(2);
  std::string text = std::to_string(n) + " 32\n";
  for (size_t i = 0; i < n; i++)
    for (size_t j = 0; j < n; j++) {
      text += random() % 100 < missing ? "-" : std::to_string(random() % (greatest + 1));
      text += j + 1 == n ? '\n' : ' ';
    }
  return text;
}

void reading(int rounds, const char* what, const std::string& text) {
  const auto* bytes = reinterpret_cast<const uint8_t*>(text.data());
  const uint64_t sum = sum_of(read_matrix(text));
  must(sum != 0 && sum == sum_of(read_in_one_pass(text)) && sum == bench_paths_read_matrix(bytes, text.size()),
       "sums of weights");
  volatile uint64_t kept = 0;
  std::vector<Candidate> all{
      {"read_matrix", [&] { kept = bench_paths_read_matrix(bytes, text.size()); }, {}},
      {"C++ careful, by lines and words", [&] { kept = sum_of(read_matrix(text)); }, {}},
      {"C++ careful, in one pass", [&] { kept = sum_of(read_in_one_pass(text)); }, {}},
  };
  measure(all, rounds, 1);
  std::printf("512 vertices, %s, %zu bytes\n", what, text.size());
  print_times(all);
  print_ratio(all[0], all[1], 1.5);
  print_ratio(all[0], all[2], 1.5);
}

}  // namespace

int main(int, char** words) {
  int rounds = std::max(1, std::atoi(words[1]));
  std::printf("tiles of side 32, %d rounds\n", rounds);
  kernels(rounds);
  reading(rounds, "weights up to 999", matrix_of(512, 999, 10));
  reading(rounds, "weights of any size", matrix_of(512, 2147483647, 10));
  reading(rounds, "nearly no edges", matrix_of(512, 99, 97));
}
