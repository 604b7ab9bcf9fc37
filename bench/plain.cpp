// The same work as the proved programs, as a plain program: what it costs without proofs. It goes on from the first cell
// that is not protected while blanks are added, and looks again only at cells whose witness changes the cell that is
// printed again. Not proved, no limits without --full; it is here to be timed.
//
//   plain page|audit < input
#include <algorithm>
#include <cstdint>
#include <cstdio>
#include <cstring>
#include <string>
#include <vector>
using std::vector;

struct Table {
    int rows, columns, percent, size;
    vector<int> count;
    vector<uint64_t> sum, first, second, lack;
    vector<uint8_t> blank;
    vector<uint64_t> falls, rises;
    uint64_t lacking;
    bool row[40], column[40];
    int row_parent[40], column_parent[40], row_round[40];

    bool part(int d, int c) const { return blank[d] && d != c && count[d] >= 2; }
    uint64_t spare(int d) const { return sum[d] + rises[d] - falls[d] - first[d]; }

    bool find_way(int c) {
        int target = c % columns;
        memset(row, 0, sizeof row);
        memset(column, 0, sizeof column);
        row[c / columns] = true;
        memset(row_round, -1, sizeof row_round);
        row_round[c / columns] = 0;
        for (int round = 0;; round++) {
            int fresh[40], n = 0;
            for (int r = 0; r < rows; r++) {
                if (row_round[r] != round) continue;
                for (int k = 0; k < columns; k++) {
                    int d = r * columns + k;
                    if (column[k] || !part(d, c) || spare(d) == 0) continue;
                    column[k] = true;
                    column_parent[k] = r;
                    fresh[n++] = k;
                    if (k == target) return true;
                }
            }
            std::sort(fresh, fresh + n);
            bool more = false;
            for (int i = 0; i < n; i++)
                for (int r = 0; r < rows; r++) {
                    int d = r * columns + fresh[i];
                    if (row[r] || !part(d, c)) continue;
                    row[r] = true;
                    row_parent[r] = fresh[i];
                    row_round[r] = round + 1;
                    more = true;
                }
            if (!more) return false;
        }
    }

    bool raise(int c) {
        std::fill(falls.begin(), falls.end(), 0);
        std::fill(rises.begin(), rises.end(), 0);
        lacking = lack[c];
        while (lacking > 0 && find_way(c)) {
            uint64_t carry = lacking;
            for (int k = c % columns;;) {
                int r = column_parent[k];
                carry = std::min(carry, spare(r * columns + k));
                if (r == c / columns) break;
                k = row_parent[r];
            }
            for (int k = c % columns;;) {
                int r = column_parent[k];
                falls[r * columns + k] += carry;
                if (r == c / columns) break;
                k = row_parent[r];
                rises[r * columns + k] += carry;
            }
            lacking -= carry;
        }
        return lacking == 0;
    }
};

static void refuse(int number, long place) {
    printf("refused %d at %ld\n", number, place);
    exit(1);
}

static Table read_table(const vector<uint8_t>& b, size_t end) {
    if (end < 5) refuse(4, end);
    Table t;
    t.rows = b[0], t.columns = b[1], t.percent = b[2];
    size_t n = b[3] + 256 * b[4];
    if (t.rows < 1 || t.rows > 40) refuse(1, 0);
    if (t.columns < 1 || t.columns > 40) refuse(1, 1);
    if (t.percent < 1 || t.percent > 100) refuse(2, 2);
    if (n > 20000) refuse(3, 3);
    if (end != 5 + 6 * n) refuse(4, end);
    t.size = t.rows * t.columns;
    t.count.assign(t.size, 0);
    t.sum.assign(t.size, 0), t.first = t.second = t.lack = t.falls = t.rises = t.sum;
    t.blank.assign(t.size, 0);
    for (size_t i = 0; i < n; i++) {
        const uint8_t* w = &b[5 + 6 * i];
        int cell = w[0] + 256 * w[1];
        uint64_t v = w[2] + 256u * w[3] + 65536u * w[4] + 16777216u * w[5];
        if (cell >= t.size) refuse(5, i);
        if (v > 1000000000) refuse(6, i);
        t.count[cell]++;
        t.sum[cell] += v;
        if (v > t.first[cell]) t.second[cell] = t.first[cell], t.first[cell] = v;
        else if (v > t.second[cell]) t.second[cell] = v;
    }
    for (int d = 0; d < t.size; d++) {
        uint64_t open = (t.first[d] * t.percent + 99) / 100, rest = t.sum[d] - t.first[d] - t.second[d];
        t.lack[d] = open > rest ? open - rest : 0;
    }
    return t;
}

static void search(Table& t) {
    vector<int> lacking, order;
    for (int d = 0; d < t.size; d++) (t.lack[d] ? lacking : order).push_back(d);
    std::fill(t.blank.begin(), t.blank.end(), 1);
    for (int c : lacking)
        if (!t.raise(c)) refuse(9, c);
    for (int d : order) t.blank[d] = 0;
    std::sort(order.begin(), order.end(), [&](int a, int b) { return t.sum[a] != t.sum[b] ? t.sum[a] < t.sum[b] : a < b; });
    int words = (t.size + 63) / 64;
    vector<uint64_t> moved(lacking.size() * words);
    auto keep = [&](size_t i) {
        uint64_t* m = &moved[i * words];
        std::fill(m, m + words, 0);
        for (int d = 0; d < t.size; d++)
            if (t.falls[d] != t.rises[d]) m[d / 64] |= 1ull << d % 64;
    };
    size_t k = 0;
    for (size_t i = 0; i < lacking.size();) {
        if (t.raise(lacking[i])) keep(i++);
        else t.blank[order[k++]] = 1;
    }
    while (k-- > 0) {
        int d = order[k];
        t.blank[d] = 0;
        for (size_t i = 0; i < lacking.size(); i++) {
            if (!(moved[i * words + d / 64] >> d % 64 & 1)) continue;
            if (!t.raise(lacking[i])) {
                t.blank[d] = 1;
                break;
            }
            keep(i);
        }
    }
}

static void print_page(const Table& t) {
    vector<uint64_t> column(t.columns);
    uint64_t all = 0;
    for (int r = 0; r < t.rows; r++) {
        uint64_t sum = 0;
        for (int k = 0; k < t.columns; k++) {
            int d = r * t.columns + k;
            sum += t.sum[d];
            column[k] += t.sum[d];
            if (t.blank[d]) fputs("- ", stdout);
            else printf("%llu ", (unsigned long long)t.sum[d]);
        }
        all += sum;
        printf("%llu\n", (unsigned long long)sum);
    }
    for (uint64_t x : column) printf("%llu ", (unsigned long long)x);
    printf("%llu\n", (unsigned long long)all);
}

static int print_audit(Table& t) {
    for (int c = 0; c < t.size; c++) {
        if (!t.lack[c]) continue;
        if (!t.blank[c]) return printf("open %d printed\n", c), 1;
        if (t.raise(c)) continue;
        printf("open %d rows", c);
        for (int r = 0; r < t.rows; r++) if (t.row[r]) printf(" %d", r);
        printf(" columns");
        for (int k = 0; k < t.columns; k++) if (t.column[k]) printf(" %d", k);
        printf("\n");
        return 1;
    }
    puts("protected");
    return 0;
}

int main(int argc, char** argv) {
    bool auditing = argc > 1 && !strcmp(argv[1], "audit");
    vector<uint8_t> b;
    uint8_t buffer[1 << 16];
    for (size_t n; (n = fread(buffer, 1, sizeof buffer, stdin)) > 0;) b.insert(b.end(), buffer, buffer + n);
    size_t end = b.size();
    if (auditing && end >= 5) end = std::min(end, size_t(5 + 6 * (b[3] + 256 * b[4])));
    Table t = read_table(b, end);
    if (!auditing) {
        search(t);
        print_page(t);
        return 0;
    }
    if (b.size() - end != size_t(t.size)) refuse(7, b.size() - end);
    for (int d = 0; d < t.size; d++) {
        if (b[end + d] > 1) refuse(7, d);
        t.blank[d] = b[end + d];
    }
    return print_audit(t);
}
