// Judges a pattern by the definition alone: looks through all tables with the same row and column sums for a witness of each
// cell that lacks something. For small tables. Reads many inputs as `reference stream` does, and answers for each a line:
// "protected", "open 1 printed" or "open 1".
#include <algorithm>
#include <cstdint>
#include <cstdio>
#include <string>
#include <vector>
using std::vector;

struct Table {
    int rows, columns, percent;
    vector<int> count, sum, first, second, lack, blank;
};

static const Table* table;
static vector<int> low, high, row_left, column_left;

// Whether the cells from d on can be filled so that every row and column comes out.
static bool fill(int d) {
    int R = table->rows, C = table->columns;
    if (d == R * C) return true;
    int r = d / C, k = d % C;
    int from = low[d], to = std::min({high[d], row_left[r], column_left[k]});
    if (k == C - 1) from = std::max(from, row_left[r]);
    if (r == R - 1) from = std::max(from, column_left[k]);
    for (int y = from; y <= to; y++) {
        row_left[r] -= y, column_left[k] -= y;
        bool done = (k < C - 1 || row_left[r] == 0) && (r < R - 1 || column_left[k] == 0) && fill(d + 1);
        row_left[r] += y, column_left[k] += y;
        if (done) return true;
    }
    return false;
}

static bool has_witness(const Table& t, int c) {
    table = &t;
    int R = t.rows, C = t.columns;
    low.assign(R * C, 0), high.assign(R * C, 0), row_left.assign(R, 0), column_left.assign(C, 0);
    for (int d = 0; d < R * C; d++) {
        row_left[d / C] += t.sum[d], column_left[d % C] += t.sum[d];
        bool free = t.blank[d] && (d == c || t.count[d] >= 2);
        low[d] = free ? (d == c ? t.sum[d] + t.lack[d] : t.first[d]) : t.sum[d];
        high[d] = free ? 1 << 30 : t.sum[d];
    }
    return fill(0);
}

int main() {
    vector<uint8_t> in;
    for (int c; (c = getchar()) != EOF;) in.push_back(c);
    for (size_t i = 0; i < in.size();) {
        uint32_t n = in[i + 2] + 256u * in[i + 3] + 65536u * in[i + 4] + 16777216u * in[i + 5];
        const uint8_t* b = &in[i + 6];
        i += 6 + n;
        Table t{b[0], b[1], b[2], {}, {}, {}, {}, {}, {}};
        int cells = t.rows * t.columns, many = b[3] + 256 * b[4];
        vector<vector<int>> in_cell(cells);
        for (int w = 0; w < many; w++) in_cell[b[5 + 6 * w]].push_back(b[7 + 6 * w]);
        for (auto& v : in_cell) {
            std::sort(v.rbegin(), v.rend());
            int sum = 0;
            for (int x : v) sum += x;
            int x1 = v.size() > 0 ? v[0] : 0, x2 = v.size() > 1 ? v[1] : 0;
            int open = (x1 * t.percent + 99) / 100;
            t.count.push_back(v.size()), t.sum.push_back(sum), t.first.push_back(x1), t.second.push_back(x2);
            t.lack.push_back(std::max(0, open - (sum - x1 - x2)));
        }
        for (int d = 0; d < cells; d++) t.blank.push_back(b[5 + 6 * many + d]);
        std::string answer = "protected";
        for (int c = 0; c < cells; c++) {
            if (t.lack[c] == 0) continue;
            if (!t.blank[c]) answer = "open " + std::to_string(c) + " printed";
            else if (!has_witness(t, c)) answer = "open " + std::to_string(c);
            else continue;
            break;
        }
        puts(answer.c_str());
    }
}
