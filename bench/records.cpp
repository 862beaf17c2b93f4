// The yardstick of the report: the same records, sorted by std::sort with the same key, and written
// into one buffer. It prints the same line as the program bench_records, and the least time of the
// rounds on standard error.
#include <algorithm>
#include <charconv>
#include <chrono>
#include <cstdint>
#include <cstdio>
#include <cstdlib>
#include <cstring>
#include <tuple>
#include <vector>

enum Kind : uint8_t { Created, Spent, Computed, Written, Closed };

struct Record {
    uint64_t key;
    uint32_t life, first, second;
    Kind kind;
    auto rank() const { return std::tie(key, life, kind, first, second); }
};

static std::vector<Record> made(uint32_t count) {
    std::vector<Record> list;
    list.reserve(count);
    uint64_t x = 88172645463325252u;
    for (uint32_t i = 0; i < count; i++) {
        x ^= x << 13;
        x ^= x >> 7;
        x ^= x << 17;
        uint64_t key = (x >> 20) & 0xffff;
        uint32_t place = (x >> 8) & 31;
        uint64_t kind = x & 7;
        if (kind == 0) list.push_back({key, 0, 0, 0, Created});
        else if (kind < 5) list.push_back({key, 1, place, 0, Spent});
        else if (kind == 5) list.push_back({key, 1, 0, 0, Computed});
        else if (kind == 6) list.push_back({key, 1, place, 1, Written});
        else list.push_back({key, 1, place & 15, 0, Closed});
    }
    return list;
}

struct Text {
    std::vector<char> bytes;
    size_t used = 0;
    explicit Text(size_t room) : bytes(room) {}
    void word(const char* word) {
        size_t n = strlen(word);
        room(n);
        memcpy(bytes.data() + used, word, n);
        used += n;
    }
    void field(const char* name, uint64_t number) {
        word(name);
        room(20);
        used = std::to_chars(bytes.data() + used, bytes.data() + used + 20, number).ptr - bytes.data();
    }
    void room(size_t n) {
        if (used + n > bytes.size()) bytes.resize(2 * bytes.size() + n);
    }
};

static Text report(const std::vector<Record>& records) {
    std::vector<Record> list = records;
    std::sort(list.begin(), list.end(), [](const Record& a, const Record& b) { return a.rank() < b.rank(); });
    Text text(32 * (list.size() + 1));
    text.field("value ", 7);
    text.word("\n");
    static const char* names[] = {"created ", "spent ", "computed ", "written ", "closed "};
    for (const Record& event : list) {
        text.field(names[event.kind], event.key);
        if (event.kind != Created) text.field(" life ", event.life);
        if (event.kind == Spent) text.field(" place ", event.first);
        if (event.kind == Written) {
            text.field(" block ", event.first);
            text.field(" version ", event.second);
        }
        if (event.kind == Closed) text.field(" word ", event.first);
        text.word("\n");
    }
    return text;
}

int main(int argc, char** argv) {
    uint32_t count = argc > 1 ? strtoul(argv[1], nullptr, 10) : 1000000;
    uint32_t rounds = argc > 2 ? strtoul(argv[2], nullptr, 10) : 1;
    std::vector<Record> list = made(count);
    uint64_t sum = 0, least = ~0ull;
    size_t length = 0;
    for (uint32_t i = 0; i < rounds; i++) {
        auto start = std::chrono::steady_clock::now();
        Text text = report(list);
        auto spent = std::chrono::steady_clock::now() - start;
        least = std::min<uint64_t>(least, std::chrono::duration_cast<std::chrono::milliseconds>(spent).count());
        length = text.used;
        sum = 0;
        for (size_t k = 0; k < length; k++) sum = sum * 31 + (unsigned char)text.bytes[k];
    }
    printf("%u records, %zu bytes, sum %llu\n", count, length, (unsigned long long)sum);
    fprintf(stderr, "%llu\n", (unsigned long long)least);
}
