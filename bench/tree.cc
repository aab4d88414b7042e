// The rows of tree_bench in a std::map, its key the names of a path each behind a slash. Words, lines and output are the same.
#include <cstdint>
#include <cstdio>
#include <cstdlib>
#include <cstring>
#include <map>
#include <optional>
#include <string>
#include <vector>

struct Row {
    bool is_directory = true;
    uint64_t number = 0;
    uint64_t body[4] = {0, 0, 0, 0};
    std::string content_type;
    std::optional<uint8_t> durability;
    std::vector<std::pair<std::string, std::string>> metadata;
    uint64_t mtime = 0;
    uint64_t children = 0;
};

using Rows = std::map<std::string, Row>;

static uint64_t next_mixed(uint64_t place) { return (place * 1664525 + 1013904223) % (1 << 20); }

static std::string path_of(const uint64_t *names, int count) {
    std::string path;
    char name[16];
    for (int k = 0; k < count; k++) {
        snprintf(name, sizeof name, "/%010llu", (unsigned long long)names[k]);
        path += name;
    }
    return path;
}

static std::string path_at(uint64_t place) {
    const uint64_t names[] = {place / 100000, place / 10000 % 10, place / 1000 % 10, place % 1000};
    return path_of(names, 4);
}

static std::string directory_at(uint64_t place) {
    const uint64_t names[] = {place / 100000, place / 10000 % 10, place / 1000 % 10};
    return path_of(names, 3);
}

static std::string above(const std::string &path) { return path.substr(0, path.rfind('/')); }

static void make(Rows &rows, const std::string &path) {
    if (rows.count(path)) return;
    rows.at(above(path)).children++;
    rows.emplace(path, Row());
}

// Looks for the parent and for what stands there, as a put has to.
static void put(Rows &rows, uint64_t place) {
    std::string path = path_at(place);
    auto parent = rows.find(above(path));
    if (parent == rows.end() || !parent->second.is_directory) exit(2);
    auto there = rows.find(path);
    if (there != rows.end() && there->second.is_directory) exit(2);
    Row row;
    row.is_directory = false;
    row.number = row.mtime = place;
    row.content_type = "application/octet-stream";
    if (there == rows.end()) parent->second.children++;
    rows.insert_or_assign(std::move(path), std::move(row));
}

static std::vector<std::string> directories(uint64_t n) {
    std::vector<std::string> dirs;
    for (uint64_t k = 0; k < n / 1000; k++) dirs.push_back(directory_at(k * 1000));
    return dirs;
}

static void put_all(Rows &rows, uint64_t n, bool mixed) {
    uint64_t place = 0, numbers = mixed && n < (1 << 20) ? 1 << 20 : n;
    for (uint64_t k = 0; k < numbers; k++) {
        place = mixed ? next_mixed(place) : k;
        if (place < n) put(rows, place);
    }
}

// Names and rows are lent, as the tree's are.
static uint64_t page(const Rows &rows, const std::string &dir) {
    uint64_t sum = 0;
    std::string front = dir + "/";
    std::vector<std::pair<const char *, const Row *>> page;
    for (auto at = rows.lower_bound(front); at != rows.end() && page.size() < 1000; ++at) {
        if (at->first.compare(0, front.size(), front) != 0) break;
        if (at->first.find('/', front.size()) != std::string::npos) continue;
        page.emplace_back(at->first.data() + front.size(), &at->second);
    }
    for (auto &listed : page) sum += std::char_traits<char>::length(listed.first);
    return sum;
}

int main(int count, char **words) {
    if (count != 3) return 1;
    uint64_t n = strtoull(words[1], nullptr, 10);
    bool mixed = std::string(words[2]) == "mixed";
    Rows rows;
    rows.emplace("", Row());
    for (uint64_t k = 0; k < n / 1000; k++) {
        const uint64_t names[] = {k / 100, k / 10 % 10, k % 10};
        for (int depth = 1; depth <= 3; depth++) make(rows, path_of(names, depth));
    }
    std::vector<std::string> paths;
    char line[64];
    while (fgets(line, sizeof line, stdin)) {
        line[strcspn(line, "\n")] = 0;
        char *number = strchr(line, ' ');
        std::string work(line, number ? number - line : strlen(line));
        uint64_t times = number ? strtoull(number, nullptr, 10) : 0, sum = 0;
        if (work == "puts") {
            put_all(rows, n, mixed);
            sum = n;
        } else if (work == "paths") {
            paths.clear();
            uint64_t place = 0;
            for (uint64_t k = 0; k < times; k++) {
                place = next_mixed(place);
                paths.push_back(path_at(n ? place % n : 0));
                sum += 4;
            }
        } else if (work == "gets") {
            for (uint64_t k = 0; k < times; k++)
                for (const std::string &path : paths) {
                    auto found = rows.find(path);
                    if (found != rows.end() && !found->second.is_directory) sum += found->second.number;
                }
        } else if (work == "counts") {
            auto dirs = directories(n);
            for (uint64_t k = 0; k < times; k++)
                for (const std::string &dir : dirs) {
                    auto found = rows.find(dir);
                    if (found != rows.end()) sum += found->second.children;
                }
        } else if (work == "pages") {
            auto dirs = directories(n);
            for (uint64_t k = 0; k < times; k++)
                for (const std::string &dir : dirs) sum += page(rows, dir);
        } else {
            return 1;
        }
        printf("%s: %llu\n", line, (unsigned long long)sum);
        fflush(stdout);
    }
    return 0;
}
