// Random swaps on a sheet, each judged and, where it is done, placed: the rules of docs/RULES.md as a plain C++ program.
//
// It stands beside the verified program crates/speed, for speed and for answers: the same words give the same line.
//
//     plain SWAPS CELLS BOOK LENGTHS      CELLS 8, 16, 32 or 64; BOOK pair or slicing; LENGTHS one or three

#include <algorithm>
#include <array>
#include <cstdint>
#include <cstdio>
#include <cstdlib>
#include <string>
#include <utility>
#include <vector>

constexpr int kMostCells = 64;
constexpr std::uint32_t kLargestSize = 1u << 20;

// ---------------------------------------------------------------------------------------------------------------- lengths

// A length: one number, or one a process. K is known when this is compiled, so the loops over it cost nothing.
template <int K>
struct Length {
    std::array<std::uint32_t, K> in{};

    friend Length operator+(Length a, const Length& b) {
        for (int k = 0; k < K; ++k) a.in[k] += b.in[k];
        return a;
    }
    friend Length operator-(Length a, const Length& b) {
        for (int k = 0; k < K; ++k) a.in[k] -= b.in[k];
        return a;
    }
    friend bool operator==(const Length& a, const Length& b) { return a.in == b.in; }

    // The least length that both are at most: the larger number in each process.
    void join(const Length& other) {
        for (int k = 0; k < K; ++k) in[k] = std::max(in[k], other.in[k]);
    }
    Length lower_half() const {
        Length half;
        for (int k = 0; k < K; ++k) half.in[k] = in[k] / 2;
        return half;
    }
    Length upper_half() const {
        Length half;
        for (int k = 0; k < K; ++k) half.in[k] = in[k] / 2 + in[k] % 2;
        return half;
    }
    bool is_even() const {
        return std::all_of(in.begin(), in.end(), [](std::uint32_t number) { return number % 2 == 0; });
    }
    bool is_size() const {
        return std::all_of(in.begin(), in.end(),
                           [](std::uint32_t number) { return number >= 1 && number <= kLargestSize; });
    }
};

// ------------------------------------------------------------------------------------------------------------------- sheet

// What a call came to: 0 for done, else the number of the refusal, with the couple where it is 14.
struct Outcome {
    int number = 0;
    int first = 0;
    int second = 0;
};

// A sequence-pair, held as the place of each cell in each row, and the symmetry group over its cells.
class Sheet {
public:
    Sheet(const std::vector<int>& first_row, const std::vector<int>& second_row)
        : n_(static_cast<int>(first_row.size())) {
        for (int i = 0; i < n_; ++i) {
            first_[first_row[i]] = i;
            second_[second_row[i]] = i;
        }
        mate_.fill(kNone);
    }

    static constexpr int kNone = -1;

    int count() const { return n_; }
    int mate(int a) const { return mate_[a]; }
    bool is_free(int a) const { return mate_[a] == kNone; }
    bool left(int a, int b) const { return first_[a] < first_[b] && second_[a] < second_[b]; }
    bool above(int a, int b) const { return first_[a] < first_[b] && second_[a] > second_[b]; }
    bool is_right_member(int a) const { return !is_free(a) && left(mate_[a], a); }

    Outcome swap(int a, int b) {
        if (a == b) return {10, 0, 0};
        exchange(a, b);
        Outcome outcome = judge();
        if (outcome.number != 0) exchange(a, b);
        return outcome;
    }

    Outcome pair(int a, int b) {
        mate_[a] = b;
        mate_[b] = a;
        Outcome outcome = judge();
        if (outcome.number != 0) mate_[a] = mate_[b] = kNone;
        return outcome;
    }

    Outcome centre(int a) {
        mate_[a] = a;
        Outcome outcome = judge();
        if (outcome.number != 0) mate_[a] = kNone;
        return outcome;
    }

private:
    void exchange(int a, int b) {
        std::swap(first_[a], first_[b]);
        std::swap(second_[a], second_[b]);
    }

    bool forbidden(int x, int y) const {
        return (left(x, y) && left(mate_[x], mate_[y])) || (above(x, y) && above(mate_[y], mate_[x]));
    }

    // The first forbidden couple: the lowest x, then the lowest y.
    Outcome judge() const {
        for (int x = 0; x < n_; ++x) {
            if (is_free(x)) continue;
            for (int y = 0; y < n_; ++y) {
                if (!is_free(y) && forbidden(x, y)) return {14, x, y};
            }
        }
        return {};
    }

    int n_;
    std::array<int, kMostCells> first_{};
    std::array<int, kMostCells> second_{};
    std::array<int, kMostCells> mate_{};
};

// ----------------------------------------------------------------------------------------------------------------- placing

// Places a sheet with given sizes. It is made once and holds all tables, so that no placing allocates anything.
template <int K>
class Placing {
public:
    using L = Length<K>;

    std::array<L, kMostCells> widths, heights, x, y;
    L half_span, depth;

    Outcome place(const Sheet& sheet) {
        sheet_ = &sheet;
        n_ = sheet.count();
        Outcome outcome = check_sizes();
        if (outcome.number == 0) {
            bottoms();
            left_edges();
        }
        return outcome;
    }

private:
    // All are sizes, mates agree, and centred widths are even.
    Outcome check_sizes() const {
        for (int a = 0; a < n_; ++a) {
            if (!widths[a].is_size() || !heights[a].is_size()) return {7, 0, 0};
        }
        for (int a = 0; a < n_; ++a) {
            if (sheet_->is_free(a)) continue;
            int mate = sheet_->mate(a);
            if (!(widths[a] == widths[mate] && heights[a] == heights[mate])) return {15, 0, 0};
        }
        for (int a = 0; a < n_; ++a) {
            if (sheet_->mate(a) == a && !widths[a].is_even()) return {16, 0, 0};
        }
        return {};
    }

    // Upward: the longest descents from each cell, each worked out once.
    void bottoms() {
        known_.fill(false);
        depth = L{};
        for (int a = 0; a < n_; ++a) depth.join(bottom(a) + heights[a]);
    }

    const L& bottom(int a) {
        if (known_[a]) return y[a];
        L most;
        join_below(a, most);
        int mate = sheet_->mate(a);
        if (mate != Sheet::kNone && mate != a) join_below(mate, most);
        y[a] = most;
        known_[a] = true;
        return y[a];
    }

    void join_below(int a, L& most) {
        for (int b = 0; b < n_; ++b) {
            if (sheet_->above(a, b)) most.join(bottom(b) + heights[b]);
        }
    }

    // Across: the longest chains into each cell and into each image, each worked out once; then each cell in the middle of
    // its room.
    void left_edges() {
        known_.fill(false);
        known_image_.fill(false);
        L longest;
        for (int a = 0; a < n_; ++a) {
            longest.join(in(a) + widths[a]);
            longest.join(in_image(a) + widths[a]);
        }
        half_span = longest.upper_half();
        L span = half_span + half_span;
        right_members_ = 0;
        for (int a = 0; a < n_; ++a) {
            if (sheet_->is_right_member(a)) right_member_[right_members_++] = a;
        }
        for (int a = 0; a < n_; ++a) {
            L twice = in_[a] + (span - widths[a] - in_image(a));
            x[a] = rounds_up(a) ? twice.upper_half() : twice.lower_half();
        }
    }

    // The cells left of a precede it; where a has a mate, it is the mate's image, so images precede it too.
    const L& in(int a) {
        if (known_[a]) return in_[a];
        L most;
        for (int b = 0; b < n_; ++b) {
            if (sheet_->left(b, a)) most.join(in(b) + widths[b]);
        }
        if (!sheet_->is_free(a)) join_images(sheet_->mate(a), most);
        in_[a] = most;
        known_[a] = true;
        return in_[a];
    }

    // A group cell's image is its mate; a free cell's image is a thing of its own, and only images precede it.
    const L& in_image(int a) {
        if (!sheet_->is_free(a)) return in(sheet_->mate(a));
        if (known_image_[a]) return in_image_[a];
        L most;
        join_images(a, most);
        in_image_[a] = most;
        known_image_[a] = true;
        return in_image_[a];
    }

    // The images that precede the image of a are those of the cells that a is left of.
    void join_images(int a, L& most) {
        for (int b = 0; b < n_; ++b) {
            if (sheet_->left(a, b)) most.join(in_image(b) + widths[b]);
        }
    }

    // A right member is rounded up, and so is a cell that has one left of it.
    bool rounds_up(int a) const {
        for (int i = 0; i < right_members_; ++i) {
            if (right_member_[i] == a || sheet_->left(right_member_[i], a)) return true;
        }
        return false;
    }

    const Sheet* sheet_ = nullptr;
    int n_ = 0;
    std::array<L, kMostCells> in_, in_image_;
    std::array<bool, kMostCells> known_, known_image_;
    std::array<int, kMostCells> right_member_;
    int right_members_ = 0;
};

// --------------------------------------------------------------------------------------------------- where the swaps begin

// The first eighth of the cells and the last are pairs, nested about all others; the cell in the middle is centred.
int pairs(int n) { return n / 8; }
int centred_cell(int n) { return n / 2; }

std::vector<int> first_row(int n) {
    std::vector<int> row;
    for (int cell = 0; cell < n; ++cell) row.push_back(cell);
    return row;
}

// The cells between the pairs are taken in steps of five.
std::vector<int> second_row(int n) {
    int between = n - 2 * pairs(n);
    std::vector<int> row;
    for (int cell = 0; cell < n; ++cell) {
        bool paired = cell < pairs(n) || cell >= pairs(n) + between;
        row.push_back(paired ? cell : pairs(n) + (5 * (cell - pairs(n)) + 2) % between);
    }
    return row;
}

// Three cells a time, two side by side and one above them, each three put beside those before or above them by turns; and
// then the pairs to both sides of all.
std::vector<int> expression(int n) {
    const int between = n - 2 * pairs(n), beside = n, above = n + 1;
    std::vector<int> list;
    for (int left = 0; left < pairs(n); ++left) list.push_back(left);
    for (int i = 0; i < between / 3; ++i) {
        int cell = pairs(n) + 3 * i;
        list.insert(list.end(), {cell, cell + 1, beside, cell + 2, above});
        if (i > 0) list.push_back(i % 2 == 0 ? beside : above);
    }
    for (int left = pairs(n) - 1; left >= 0; --left) list.insert(list.end(), {beside, n - 1 - left, beside});
    return list;
}

Sheet sequence_pair(int n) { return Sheet(first_row(n), second_row(n)); }

// A slicing expression as the sequence-pair that it amounts to: side by side, the earlier part comes first in both rows;
// stacked, the later part is above, so it comes first in the first row and second in the second.
Sheet slicing(int n) {
    struct Part {
        std::vector<int> first, second;
    };
    auto joined = [](std::vector<int> one, const std::vector<int>& other) {
        one.insert(one.end(), other.begin(), other.end());
        return one;
    };
    std::vector<Part> waiting;
    for (int number : expression(n)) {
        if (number < n) {
            waiting.push_back({{number}, {number}});
            continue;
        }
        Part later = waiting.back();
        waiting.pop_back();
        Part earlier = waiting.back();
        waiting.pop_back();
        bool stacked = number == n + 1;
        waiting.push_back({stacked ? joined(later.first, earlier.first) : joined(earlier.first, later.first),
                           joined(earlier.second, later.second)});
    }
    return Sheet(waiting.back().first, waiting.back().second);
}

template <int K>
void set_sizes(Placing<K>& placing, int n) {
    auto number = [](int seed) { return static_cast<std::uint32_t>(20 + seed % 41); };
    for (int cell = 0; cell < n; ++cell) {
        // a right member has the size of its mate; a centred width is doubled, so that it is even
        int lower = cell < n - pairs(n) ? cell : n - 1 - cell;
        std::uint32_t times = cell == centred_cell(n) ? 2 : 1;
        for (int k = 0; k < K; ++k) {
            placing.widths[cell].in[k] = times * number(37 * lower + 5 * k);
            placing.heights[cell].in[k] = number(23 * lower + 7 * k);
        }
    }
}

// --------------------------------------------------------------------------------------------------------------- the swaps

struct Dice {
    std::uint64_t state = 1;

    int below(int n) {
        state = state * 6364136223846793005u + 1442695040888963407u;
        return static_cast<int>((state >> 33) % static_cast<std::uint64_t>(n));
    }
};

struct Tally {
    std::uint32_t done = 0, refused = 0;
    std::uint64_t sum = 0;

    void add(std::uint64_t number) { sum = sum * 31 + number; }

    template <int K>
    void add(const Length<K>& length) {
        for (std::uint32_t number : length.in) add(static_cast<std::uint64_t>(number));
    }

    template <int K>
    void place(const Placing<K>& placing, int n) {
        ++done;
        add(placing.half_span);
        add(placing.depth);
        for (int a = 0; a < n; ++a) add(placing.x[a]);
        for (int a = 0; a < n; ++a) add(placing.y[a]);
    }

    void refuse(const Outcome& outcome) {
        ++refused;
        if (outcome.number == 14) {
            add(static_cast<std::uint64_t>(outcome.first));
            add(static_cast<std::uint64_t>(outcome.second));
        } else {
            add(static_cast<std::uint64_t>(outcome.number));
        }
    }
};

template <int K>
void report(Sheet sheet, std::uint32_t count) {
    const int n = sheet.count();
    for (int left = 0; left < pairs(n); ++left) {
        if (sheet.pair(left, n - 1 - left).number != 0) std::exit(1);
    }
    if (sheet.centre(centred_cell(n)).number != 0) std::exit(1);

    Placing<K> placing;
    set_sizes(placing, n);
    Dice dice;
    Tally tally;
    for (std::uint32_t i = 0; i < count; ++i) {
        int a = dice.below(n);
        int b = dice.below(n);
        Outcome outcome = sheet.swap(a, b);
        if (outcome.number == 0) outcome = placing.place(sheet);
        if (outcome.number == 0) {
            tally.place(placing, n);
        } else {
            tally.refuse(outcome);
        }
    }
    std::printf("%u swaps: %u done and placed, %u refused, checksum %llu\n", count, tally.done, tally.refused,
                static_cast<unsigned long long>(tally.sum));
}

int main(int words, char** word) {
    const char* usage = "usage: plain SWAPS 8|16|32|64 pair|slicing one|three\n";
    if (words != 5) {
        std::fputs(usage, stderr);
        return 1;
    }
    const auto count = static_cast<std::uint32_t>(std::strtoul(word[1], nullptr, 10));
    const int n = std::atoi(word[2]);
    const std::string book = word[3], lengths = word[4];
    if ((n != 8 && n != 16 && n != 32 && n != 64) || (book != "pair" && book != "slicing") ||
        (lengths != "one" && lengths != "three")) {
        std::fputs(usage, stderr);
        return 1;
    }
    const Sheet sheet = book == "pair" ? sequence_pair(n) : slicing(n);
    if (lengths == "one") {
        report<1>(sheet, count);
    } else {
        report<3>(sheet, count);
    }
    return 0;
}
