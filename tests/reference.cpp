// An independent, literal and slow implementation of the rule book (docs/RULES.md), to compare the proved programs with.
// It shares no code and no method with them: it looks for ways by depth first, one unit of what is lacking decides nothing
// early, and the search for a pattern runs every flow again after each blank.
//
//   reference page|audit|cells [--full] < input     one input, as the programs take it
//   reference stream < cases                        many: for each a byte (0 page, 1 audit, 2 cells), a byte (1: --full),
//                                                   four bytes length, the input; answers a byte status, four bytes
//                                                   length and the text
#include <algorithm>
#include <cstdint>
#include <cstdio>
#include <cstring>
#include <functional>
#include <string>
#include <vector>
using std::string;
using std::vector;
typedef long long num;

struct Refused { num number, place; };

struct Survey {
    num rows, columns, percent;
    vector<num> cell, turnover;
    num size() const { return rows * columns; }
};

struct Cells { vector<num> count, sum, first, second, lack; };

static Survey read_survey(const vector<uint8_t>& b) {
    if (b.size() < 5) throw Refused{4, (num)b.size()};
    Survey s;
    s.rows = b[0], s.columns = b[1], s.percent = b[2];
    num n = b[3] + 256 * b[4];
    if (s.rows < 1 || s.rows > 40) throw Refused{1, 0};
    if (s.columns < 1 || s.columns > 40) throw Refused{1, 1};
    if (s.percent < 1 || s.percent > 100) throw Refused{2, 2};
    if (n > 20000) throw Refused{3, 3};
    if ((num)b.size() != 5 + 6 * n) throw Refused{4, (num)b.size()};
    for (num i = 0; i < n; i++) {
        const uint8_t* w = &b[5 + 6 * i];
        num cell = w[0] + 256 * w[1];
        num turnover = w[2] + 256LL * w[3] + 65536LL * w[4] + 16777216LL * w[5];
        if (cell >= s.size()) throw Refused{5, i};
        if (turnover > 1000000000) throw Refused{6, i};
        s.cell.push_back(cell);
        s.turnover.push_back(turnover);
    }
    return s;
}

static Cells cells_of(const Survey& s) {
    vector<vector<num>> in(s.size());
    for (size_t i = 0; i < s.cell.size(); i++) in[s.cell[i]].push_back(s.turnover[i]);
    Cells c;
    for (auto& v : in) {
        std::sort(v.rbegin(), v.rend());
        num sum = 0;
        for (num x : v) sum += x;
        num x1 = v.size() > 0 ? v[0] : 0, x2 = v.size() > 1 ? v[1] : 0;
        num open = x1 * s.percent / 100;
        if (open * 100 < x1 * s.percent) open++;
        num lack = open - (sum - x1 - x2);
        c.count.push_back(v.size());
        c.sum.push_back(sum);
        c.first.push_back(x1);
        c.second.push_back(x2);
        c.lack.push_back(lack > 0 ? lack : 0);
    }
    return c;
}

// The most by which cell c can be raised, up to what it lacks, with the rows and columns that are reached at the end.
struct Raised { num lacking; vector<bool> rows, columns; vector<num> sums; };

static Raised raise(const Survey& s, const Cells& q, const vector<bool>& blank, num c) {
    num R = s.rows, C = s.columns;
    Raised out{q.lack[c], {}, {}, q.sum};
    auto part = [&](num d) { return blank[d] && d != c && q.count[d] >= 2; };
    for (;;) {
        vector<bool> row(R), column(C);
        vector<num> way;  // cells: falls, rises, falls, ..
        num target = c % C;
        std::function<bool(num)> from_row, from_column;
        from_row = [&](num r) -> bool {
            row[r] = true;
            for (num k = C - 1; k >= 0; k--) {
                num d = r * C + k;
                if (column[k] || !part(d) || out.sums[d] <= q.first[d]) continue;
                way.push_back(d);
                if (from_column(k)) return true;
                way.pop_back();
            }
            return false;
        };
        from_column = [&](num k) -> bool {
            column[k] = true;
            if (k == target && out.lacking > 0) return true;
            for (num r = R - 1; r >= 0; r--) {
                num d = r * C + k;
                if (row[r] || !part(d)) continue;
                way.push_back(d);
                if (from_row(r)) return true;
                way.pop_back();
            }
            return false;
        };
        if (out.lacking == 0 || !from_row(c / C)) {
            out.rows = row;
            out.columns = column;
            return out;
        }
        num carry = out.lacking;
        for (size_t i = 0; i < way.size(); i += 2) carry = std::min(carry, out.sums[way[i]] - q.first[way[i]]);
        for (size_t i = 0; i < way.size(); i++) out.sums[way[i]] += i % 2 ? carry : -carry;
        out.sums[c] += carry;
        out.lacking -= carry;
    }
}

static bool protects(const Survey& s, const Cells& q, const vector<bool>& blank) {
    for (num c = 0; c < s.size(); c++)
        if (q.lack[c] > 0 && (!blank[c] || raise(s, q, blank, c).lacking > 0)) return false;
    return true;
}

static vector<bool> search(const Survey& s, const Cells& q) {
    vector<bool> all(s.size(), true), blank(s.size());
    for (num c = 0; c < s.size(); c++)
        if (q.lack[c] > 0 && raise(s, q, all, c).lacking > 0) throw Refused{9, c};
    vector<num> order;
    for (num c = 0; c < s.size(); c++) {
        blank[c] = q.lack[c] > 0;
        if (!blank[c]) order.push_back(c);
    }
    std::stable_sort(order.begin(), order.end(), [&](num a, num b) { return q.sum[a] < q.sum[b]; });
    size_t k = 0;
    while (!protects(s, q, blank)) blank[order[k++]] = true;
    while (k-- > 0) {
        blank[order[k]] = false;
        if (!protects(s, q, blank)) blank[order[k]] = true;
    }
    return blank;
}

static string page(const Survey& s, const Cells& q, const vector<bool>& blank) {
    string t;
    vector<num> column(s.columns);
    num all = 0;
    for (num r = 0; r < s.rows; r++) {
        num sum = 0;
        for (num k = 0; k < s.columns; k++) {
            num d = r * s.columns + k;
            sum += q.sum[d];
            column[k] += q.sum[d];
            t += blank[d] ? "-" : std::to_string(q.sum[d]);
            t += " ";
        }
        all += sum;
        t += std::to_string(sum) + "\n";
    }
    for (num x : column) t += std::to_string(x) + " ";
    return t + std::to_string(all) + "\n";
}

static string audit(const Survey& s, const Cells& q, const vector<bool>& blank) {
    for (num c = 0; c < s.size(); c++) {
        if (q.lack[c] == 0) continue;
        if (!blank[c]) return "open " + std::to_string(c) + " printed\n";
        Raised f = raise(s, q, blank, c);
        if (f.lacking == 0) continue;
        string t = "open " + std::to_string(c) + " rows";
        for (num r = 0; r < s.rows; r++) if (f.rows[r]) t += " " + std::to_string(r);
        t += " columns";
        for (num k = 0; k < s.columns; k++) if (f.columns[k]) t += " " + std::to_string(k);
        return t + "\n";
    }
    return "protected\n";
}

static void serve(const Survey& s, bool full) {
    if (!full && (s.size() > 64 || s.cell.size() > 2000)) throw Refused{8, 0};
}

static string answer(int mode, bool full, const vector<uint8_t>& in, int& status) {
    status = 1;
    try {
        vector<uint8_t> head = in, tail;
        if (mode == 1 && in.size() >= 5) {
            size_t end = 5 + 6 * (in[3] + 256 * in[4]);
            if (end < in.size()) head.assign(in.begin(), in.begin() + end), tail.assign(in.begin() + end, in.end());
        }
        Survey s = read_survey(head);
        Cells q = cells_of(s);
        if (mode == 2) {
            string t;
            for (num d = 0; d < s.size(); d++)
                t += std::to_string(q.count[d]) + " " + std::to_string(q.sum[d]) + " " + std::to_string(q.first[d]) + " " +
                     std::to_string(q.second[d]) + " " + std::to_string(q.lack[d]) + "\n";
            status = 0;
            return t;
        }
        if (mode == 0) {
            serve(s, full);
            string t = page(s, q, search(s, q));
            status = 0;
            return t;
        }
        if ((num)tail.size() != s.size()) throw Refused{7, (num)tail.size()};
        vector<bool> blank;
        for (size_t i = 0; i < tail.size(); i++) {
            if (tail[i] > 1) throw Refused{7, (num)i};
            blank.push_back(tail[i]);
        }
        serve(s, full);
        string t = audit(s, q, blank);
        status = t != "protected\n";
        return t;
    } catch (Refused r) {
        return "refused " + std::to_string(r.number) + " at " + std::to_string(r.place) + "\n";
    }
}

static vector<uint8_t> all_input() {
    vector<uint8_t> v;
    int c;
    while ((c = getchar()) != EOF) v.push_back(c);
    return v;
}

int main(int argc, char** argv) {
    string what = argc > 1 ? argv[1] : "";
    if (what == "stream") {
        vector<uint8_t> in = all_input();
        for (size_t i = 0; i + 6 <= in.size();) {
            uint32_t n = in[i + 2] + 256u * in[i + 3] + 65536u * in[i + 4] + 16777216u * in[i + 5];
            vector<uint8_t> one(in.begin() + i + 6, in.begin() + i + 6 + n);
            int status;
            string t = answer(in[i], in[i + 1], one, status);
            putchar(status);
            uint32_t l = t.size();
            for (int b = 0; b < 4; b++) putchar(l >> (8 * b) & 255);
            fwrite(t.data(), 1, l, stdout);
            i += 6 + n;
        }
        return 0;
    }
    int mode = what == "page" ? 0 : what == "audit" ? 1 : 2;
    int status;
    string t = answer(mode, argc > 2 && !strcmp(argv[2], "--full"), all_input(), status);
    fputs(t.c_str(), stdout);
    return status;
}
