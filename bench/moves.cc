// The moves of `kh edit` on plain arrays: what bench/moves.py measures `kh` against.
//
//     moves TIMES < INPUT
//
// INPUT is a planar diagram text, `;` and a script of the lines `r1 add`, `r1 drop`, `r2 add`, `r2 drop` and `r3`. The script is carried
// out TIMES times, each time from the diagram on. It writes the diagram at its end, and `us/move` with what a move took. A move that
// can not be made ends it with status 1. The rules are those of docs/FORMATS.md; faces are counted for a finger that is added, so that
// it is refused where `kh` refuses it.
#include <algorithm>
#include <chrono>
#include <cstdio>
#include <cstdlib>
#include <cstring>
#include <iostream>
#include <iterator>
#include <sstream>
#include <string>
#include <vector>

constexpr int MOST = 20;

struct Code {
    int count = 0, loops = 0;
    int arcs[MOST + 2][4];
};

// Classes by their least members.
struct Classes {
    int of[4 * MOST + 9];
    explicit Classes(int size) {
        for (int i = 0; i < size; i++) of[i] = i;
    }
    int name(int x) {
        while (of[x] != x) x = of[x] = of[of[x]];
        return x;
    }
    void join(int x, int y) {
        x = name(x), y = name(y);
        of[std::max(x, y)] = std::min(x, y);
    }
};

[[noreturn]] static void refuse(const char *why) {
    std::fprintf(stderr, "%s\n", why);
    std::exit(1);
}

static void directions(const Code &code, bool *positive) {
    int n = code.count;
    Classes classes(2 * n + 2);
    for (int i = 0; i < n; i++)
        for (int s : {0, 1}) classes.join(code.arcs[i][s], code.arcs[i][s + 2]);
    int size[2 * MOST + 2] = {}, under[2 * MOST + 2], over[2 * MOST + 2];
    std::fill(under, under + 2 * n + 2, -1), std::fill(over, over + 2 * n + 2, -1);
    for (int x = 1; x <= 2 * n; x++) size[classes.name(x)]++;
    for (int i = n - 1; i >= 0; i--) under[classes.name(code.arcs[i][0])] = over[classes.name(code.arcs[i][1])] = i;
    for (int i = 0; i < n; i++) {
        const int *slots = code.arcs[i];
        int first = classes.name(slots[1]), next = slots[3] + 1;
        if (size[first] >= 3)
            positive[i] = slots[1] == (next <= 2 * n && classes.name(next) == first ? next : first);
        else if (under[first] >= 0)
            positive[i] = slots[3] == code.arcs[under[first]][2];
        else
            positive[i] = over[first] == i ? slots[3] < slots[1] : slots[1] < slots[3];
    }
}

static bool is_head(const bool *positive, int i, int s) { return s == 0 || s == (positive[i] ? 3 : 1); }

static Code renumbered(const Code &code, const bool *positive) {
    int next[4 * MOST + 9], label[4 * MOST + 9], number[4 * MOST + 9] = {}, most = 0, given = 0;
    bool stands[4 * MOST + 9] = {};
    for (int i = 0; i < code.count; i++)
        for (int s : {0, positive[i] ? 3 : 1}) {
            int arc = code.arcs[i][s];
            stands[arc] = true, most = std::max(most, arc);
            next[arc] = code.arcs[i][s ^ 2], label[arc] = s ? i + 1 : -i - 1;
        }
    for (int first = 0; first <= most; first++) {
        if (!stands[first] || number[first]) continue;
        int start = first, second = next[first];
        bool circle = second != first && next[second] == first && label[first] > 0 && label[second] > 0;
        if (circle && label[second] < label[first]) start = second;
        int arc = start;
        do number[arc] = ++given, arc = next[arc];
        while (arc != start);
    }
    Code made = code;
    for (int i = 0; i < code.count; i++)
        for (int &arc : made.arcs[i]) arc = number[arc];
    return made;
}

static Code kinked(const Code &code, int arc, bool under, bool plus) {
    if (arc < 1 || arc > 2 * code.count || code.count == MOST) refuse("no kink can be added");
    bool positive[MOST];
    directions(code, positive);
    Code made = code;
    for (int i = 0; i < code.count; i++)
        for (int s = 0; s < 4; s++) {
            int &name = made.arcs[i][s];
            if (name > arc || (name == arc && is_head(positive, i, s))) name += 2;
        }
    int a = arc, b = arc + 1, c = arc + 2;
    int slots[4][4] = {{b, a, c, b}, {b, b, c, a}, {a, b, b, c}, {a, c, b, b}};
    std::memcpy(made.arcs[made.count++], slots[2 * under + plus], sizeof slots[0]);
    return made;
}

static Code dropped(const Code &code, int first, int second) {
    bool positive[MOST], stands[2 * MOST + 2] = {}, kept_positive[MOST];
    directions(code, positive);
    Classes classes(2 * code.count + 1);
    for (int i : {first, second})
        for (int s : {0, 1}) classes.join(code.arcs[i][s], code.arcs[i][s + 2]);
    Code made;
    made.loops = code.loops;
    for (int i = 0; i < code.count; i++) {
        if (i == first || i == second) continue;
        kept_positive[made.count] = positive[i];
        for (int s = 0; s < 4; s++) stands[made.arcs[made.count][s] = classes.name(code.arcs[i][s])] = true;
        made.count++;
    }
    for (int x = 1; x <= 2 * code.count; x++) made.loops += classes.name(x) == x && !stands[x];
    return renumbered(made, kept_positive);
}

static void partners(const Code &code, int *partner) {
    int seen[2 * MOST + 6];
    std::fill(seen, seen + 2 * code.count + 1, -1);
    for (int d = 0; d < 4 * code.count; d++) {
        int &other = seen[code.arcs[d / 4][d % 4]];
        if (other < 0)
            other = d;
        else
            partner[d] = other, partner[other] = d;
    }
}

static int on(int dart, int steps) { return dart / 4 * 4 + (dart + steps) % 4; }

static bool is_on_the_sphere(const Code &code) {
    int partner[4 * MOST + 8], faces = 0, pieces = 0;
    bool seen[4 * MOST + 8] = {};
    partners(code, partner);
    Classes classes(code.count);
    for (int d = 0; d < 4 * code.count; d++) {
        classes.join(d / 4, partner[d] / 4);
        if (seen[d]) continue;
        faces++;
        for (int x = d; !seen[x]; x = on(partner[x], 3)) seen[x] = true;
    }
    for (int i = 0; i < code.count; i++) pieces += classes.name(i) == i;
    return faces == code.count + 2 * pieces;
}

static void cross(int *slots, bool plus, int u, int v, int s, int t) {
    slots[0] = u, slots[plus ? 3 : 1] = s, slots[2] = v, slots[plus ? 1 : 3] = t;
}

static Code fingered(const Code &code, int a, bool a_left, int b, bool b_left) {
    if (a < 1 || b < 1 || a > 2 * code.count || b > 2 * code.count || a == b || code.count + 2 > MOST) refuse("no finger can be added");
    bool positive[MOST];
    directions(code, positive);
    auto opened = [a, b](int x) { return x + (a < x ? 2 : 0) + (b < x ? 2 : 0); };
    Code made = code;
    for (int i = 0; i < code.count; i++)
        for (int s = 0; s < 4; s++) {
            int x = code.arcs[i][s];
            made.arcs[i][s] = opened(x) + ((x == a || x == b) && is_head(positive, i, s) ? 2 : 0);
        }
    int over = opened(a), under = opened(b), first = a_left != b_left ? 0 : 1;
    cross(made.arcs[made.count++], b_left, under + first, under + first + 1, over, over + 1);
    cross(made.arcs[made.count++], !b_left, under + 1 - first, under + 2 - first, over + 1, over + 2);
    if (!is_on_the_sphere(made)) refuse("a finger leaves the sphere");
    return made;
}

static bool has_kink(const int *slots) {
    return slots[0] == slots[1] || slots[1] == slots[2] || slots[2] == slots[3] || slots[3] == slots[0];
}

static bool has_bigon(const Code &code, int first, int second) {
    int partner[4 * MOST + 8];
    partners(code, partner);
    for (int p = 0; p < 4; p++)
        for (int q = 0; q < 4; q++)
            if ((p + q) % 2 && partner[4 * first + p] == on(4 * second + q, 1) && partner[4 * second + q] == on(4 * first + p, 1)) return true;
    return false;
}

static Code slid(const Code &code, int c, int d, int e) {
    int partner[4 * MOST + 8];
    partners(code, partner);
    for (int slot = 0; slot < 4; slot++) {
        int x = 4 * c + slot, y = on(partner[x], 3), z = on(partner[y], 3);
        bool there = (y / 4 == d && z / 4 == e) || (y / 4 == e && z / 4 == d);
        if (on(partner[z], 3) != x || !there || (x % 2 == y % 2 && y % 2 == z % 2)) continue;
        bool positive[MOST];
        directions(code, positive);
        Code made = code;
        int corners[4] = {x, y, z, x};
        for (int k = 0; k < 3; k++) {
            int a = corners[k], b = on(corners[k + 1], 1), side = code.arcs[a / 4][a % 4];
            made.arcs[a / 4][(a + 2) % 4] = made.arcs[b / 4][(b + 2) % 4] = side;
            made.arcs[a / 4][a % 4] = code.arcs[b / 4][(b + 2) % 4];
            made.arcs[b / 4][b % 4] = code.arcs[a / 4][(a + 2) % 4];
        }
        return renumbered(made, positive);
    }
    refuse("there is no triangle that slides");
}

struct Line {
    int kind, first, second, third;
    bool one, other;
};

static Code moved(const Code &code, const Line &line) {
    auto is = [&code](int crossing) { return 1 <= crossing && crossing <= code.count; };
    switch (line.kind) {
    case 0:
        return kinked(code, line.first, line.one, line.other);
    case 1:
        if (!is(line.first) || !has_kink(code.arcs[line.first - 1])) refuse("there is no kink");
        return dropped(code, line.first - 1, line.first - 1);
    case 2:
        return fingered(code, line.first, line.one, line.second, line.other);
    case 3:
        if (!is(line.first) || !is(line.second) || line.first == line.second || !has_bigon(code, line.first - 1, line.second - 1)) refuse("there is no bigon");
        return dropped(code, line.first - 1, line.second - 1);
    default:
        if (!is(line.first) || !is(line.second) || !is(line.third) || line.first == line.second || line.first == line.third || line.second == line.third) refuse("there is no triangle");
        return slid(code, line.first - 1, line.second - 1, line.third - 1);
    }
}

static Line read(const std::string &text) {
    std::istringstream words(text);
    std::string move, deed, one, other;
    Line line = {};
    words >> move;
    if (move == "r3") {
        line.kind = 4, words >> line.first >> line.second >> line.third;
        return line;
    }
    words >> deed;
    line.kind = (move == "r2") * 2 + (deed == "drop");
    if (line.kind == 0) words >> line.first >> one >> other, line.one = one == "under", line.other = other == "plus";
    if (line.kind == 1) words >> line.first;
    if (line.kind == 2) words >> line.first >> one >> line.second >> other, line.one = one == "left", line.other = other == "left";
    if (line.kind == 3) words >> line.first >> line.second;
    return line;
}

int main(int, char **words) {
    std::string text(std::istreambuf_iterator<char>(std::cin), {});
    size_t end = text.find(';');
    Code code;
    int slot = 0;
    for (size_t i = 0; i < end; i++)
        if (std::isdigit(text[i])) {
            code.arcs[slot / 4][slot % 4] = std::atoi(&text[i]), slot++;
            while (std::isdigit(text[i + 1])) i++;
        }
    code.count = slot / 4;
    std::vector<Line> script;
    std::istringstream rest(text.substr(end + 1));
    for (std::string line; std::getline(rest, line);) script.push_back(read(line));
    int times = std::atoi(words[1]);
    Code made = code;
    auto start = std::chrono::steady_clock::now();
    for (int i = 0; i < times; i++) {
        made = code;
        for (const Line &line : script) made = moved(made, line);
    }
    double taken = std::chrono::duration<double, std::micro>(std::chrono::steady_clock::now() - start).count();
    std::printf("PD[");
    for (int i = 0; i < made.count; i++)
        std::printf("%sX[%d,%d,%d,%d]", i ? "," : "", made.arcs[i][0], made.arcs[i][1], made.arcs[i][2], made.arcs[i][3]);
    for (int i = 0; i < made.loops; i++) std::printf("%sLoop[%d]", made.count + i ? "," : "", 2 * made.count + i + 1);
    std::printf("]\nus/move %.3f\n", taken / times / script.size());
}
