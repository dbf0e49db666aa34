// A table: the proved library through its C calls, and the literal implementation beside it. For each row how many trixels were classified (or
// pointings looked up), microseconds for all of them and nanoseconds for each, of both, and our time over the literal one. Covers are of depth 12 where
// none is named. Of both the best of seven rounds (of one for the worst cases), one after the other, in processor time; reading the file is part of a
// cover. Both lists, counts, seen and the elements that must stay are compared, and the identifiers of the pointings, and the entries of an index with
// those of a std::map: a difference ends with 1. A second table has the frames of a region from an index: the call beside the cover alone, and the walk,
// which is what the call takes beyond it.
#include "literal.hpp"
#include "../include/htm.h"
#include <array>
#include <map>
#include <random>
#include <time.h>
#include <tuple>

using literal::Bytes;

static const double K = 1048576, PI = acos(-1);
static const uint64_t UNTOUCHED = 0x5555555555555555;

struct Point { double x, y, z; };

static Point cross(Point a, Point b) { return {a.y * b.z - a.z * b.y, a.z * b.x - a.x * b.z, a.x * b.y - a.y * b.x}; }
static Point unit(Point a)
{
    double n = sqrt(a.x * a.x + a.y * a.y + a.z * a.z);
    return {a.x / n, a.y / n, a.z / n};
}

// ---- region files

static void begin(Bytes &f, unsigned depth, unsigned budget)
{
    for (unsigned n : {8u, 1u, depth, budget}) literal::put16(f, n);
}
static void convex(Bytes &f) { literal::put16(f, 4); literal::put16(f, 2); }
static void halfspace(Bytes &f, Point n, double offset)
{
    literal::put16(f, 20); literal::put16(f, 3);
    for (double c : {n.x, n.y, n.z, offset}) literal::put32(f, lround(c * K));
}
static void end(Bytes &f) { literal::put16(f, 4); literal::put16(f, 4); }

// A convex of great circles around a middle, each some degrees away from it.
static void polygon(Bytes &f, Point middle, double degrees, int sides)
{
    Point u = unit(cross(middle, {0.1, 0.9, 0.3})), w = cross(middle, u);
    double far = cos(degrees * PI / 180), near = sin(degrees * PI / 180);
    convex(f);
    for (int k = 0; k < sides; k++) {
        double a = 2 * PI * k / sides, c = cos(a) * far, s = sin(a) * far;
        halfspace(f, {near * middle.x - c * u.x - s * w.x, near * middle.y - c * u.y - s * w.y, near * middle.z - c * u.z - s * w.z}, 0);
    }
}

static const Point MIDDLE = unit({0.31, -0.52, 0.83});

static Bytes cap(double degrees, unsigned budget, unsigned depth = 12)
{
    Bytes f;
    begin(f, depth, budget); convex(f); halfspace(f, MIDDLE, cos(degrees * PI / 180)); end(f);
    return f;
}
static Bytes one_polygon(double degrees, int sides, unsigned budget, unsigned depth = 12)
{
    Bytes f;
    begin(f, depth, budget); polygon(f, MIDDLE, degrees, sides); end(f);
    return f;
}
// Polygons all over the sky, along a spiral.
static Bytes polygons(int count, double degrees, int sides, unsigned budget)
{
    Bytes f;
    begin(f, 12, budget);
    for (int k = 0; k < count; k++) {
        double z = 1 - (2 * k + 1.0) / count, r = sqrt(1 - z * z), a = 2.4 * k;
        polygon(f, {r * cos(a), r * sin(a), z}, degrees, sides);
    }
    end(f);
    return f;
}

// The worst cases. Bands between two meridians each, all around the sky: most of their trixels are on a border.
static Bytes bands(int count, unsigned budget)
{
    Bytes f;
    begin(f, 12, budget);
    for (int k = 0; k < count; k++) {
        double a = 2 * PI * k / count, b = a + PI / count;
        convex(f); halfspace(f, {-sin(a), cos(a), 0}, 0); halfspace(f, {sin(b), -cos(b), 0}, 0);
    }
    end(f);
    return f;
}
// Hemispheres whose borders lie close together, a hundred in a convex: near the border all of them are active.
static Bytes hemispheres(int count, unsigned budget)
{
    Bytes f;
    Point u = unit(cross(MIDDLE, {0.1, 0.9, 0.3})), w = cross(MIDDLE, u);
    begin(f, 12, budget);
    for (int k = 0; k < count; k++) {
        double a = 2.4 * k, r = 3e-5 * (k % 17);
        if (k % 100 == 0) convex(f);
        halfspace(f, unit({MIDDLE.x + r * (cos(a) * u.x + sin(a) * w.x), MIDDLE.y + r * (cos(a) * u.y + sin(a) * w.y), MIDDLE.z + r * (cos(a) * u.z + sin(a) * w.z)}), 0);
    }
    end(f);
    return f;
}

// ---- rounds

static double processor_us()
{
    timespec t;
    clock_gettime(CLOCK_PROCESS_CPUTIME_ID, &t);
    return t.tv_sec * 1e6 + t.tv_nsec * 1e-3;
}

template <class Call> static double us(Call call)
{
    double t = processor_us();
    call();
    return processor_us() - t;
}

struct Times { double ours = 1e18, literal = 1e18; };

// The least times of some rounds, in microseconds.
template <class Ours, class Literal> static Times best(Ours ours, Literal literal, int rounds = 7)
{
    Times least;
    for (int round = 0; round < rounds; round++) {
        least.ours = std::min(least.ours, us(ours));
        least.literal = std::min(least.literal, us(literal));
    }
    return least;
}

static bool print(const char *name, size_t count, Times t, bool same)
{
    printf("%-34s %8zu %9.2f %8.0f %10.2f %8.0f %6.2f%s\n", name, count, t.ours, t.ours * 1000 / count, t.literal, t.literal * 1000 / count,
           t.ours / t.literal, same ? "" : "  DIFFERS");
    return same;
}

// ---- rows

static std::vector<int32_t> some_points(size_t n)
{
    std::mt19937_64 random(20261115);
    std::normal_distribution<double> normal;
    std::vector<int32_t> p;
    while (p.size() < 3 * n) {
        double a = normal(random), b = normal(random), c = normal(random), q = sqrt(a * a + b * b + c * c);
        int32_t x = lround(a / q * K), y = lround(b / q * K), z = lround(c / q * K);
        if (literal::is_vector(x, y, z)) { p.push_back(x); p.push_back(y); p.push_back(z); }
    }
    return p;
}

static bool lookup_row(const std::vector<int32_t> &p, unsigned depth)
{
    size_t n = p.size() / 3;
    std::vector<uint64_t> id(n), want(n);
    Times t = best([&] { for (size_t i = 0; i < n; i++) id[i] = lookup(p[3 * i], p[3 * i + 1], p[3 * i + 2], depth); },
                   [&] { for (size_t i = 0; i < n; i++) literal::lookup(p[3 * i], p[3 * i + 1], p[3 * i + 2], depth, want[i]); });
    return print(("lookups at depth " + std::to_string(depth)).c_str(), n, t, id == want);
}

// The same points from floats half a unit beyond them; the literal lookup takes them by C's own product and cast.
template <class Float> static bool report_row(const char *name, const std::vector<int32_t> &p, unsigned depth, int64_t (*call)(Float, Float, Float, uint32_t))
{
    size_t n = p.size() / 3;
    std::vector<Float> v;
    for (int32_t c : p) v.push_back((Float)((abs(c) == K || c == 0 ? c : c < 0 ? c - 0.5 : c + 0.5) / K));
    std::vector<uint64_t> id(n), want(n);
    auto whole = [&](size_t i) { return (int32_t)(v[i] * (Float)K); };
    Times t = best([&] { for (size_t i = 0; i < n; i++) id[i] = (uint64_t)call(v[3 * i], v[3 * i + 1], v[3 * i + 2], depth); },
                   [&] { for (size_t i = 0; i < n; i++) literal::lookup(whole(3 * i), whole(3 * i + 1), whole(3 * i + 2), depth, want[i]); });
    return print(name, n, t, id == want);
}

// What the floats cost by themselves: vectors of half the length, which are refused as 8 before any trixel is looked at.
static bool refused_line(const std::vector<int32_t> &p)
{
    size_t n = p.size() / 3;
    std::vector<int32_t> half;
    std::vector<double> f64;
    std::vector<float> f32;
    for (int32_t c : p) { half.push_back(c / 2); f64.push_back(c / 2 / K); f32.push_back((float)(c / 2 / K)); }
    std::vector<uint64_t> none(n);
    std::vector<int64_t> wide(n), narrow(n);
    Times whole = best([&] { for (size_t i = 0; i < n; i++) none[i] = lookup(half[3 * i], half[3 * i + 1], half[3 * i + 2], 12); }, [] {}, 20);
    Times floats = best([&] { for (size_t i = 0; i < n; i++) wide[i] = htm_lookup_f64(f64[3 * i], f64[3 * i + 1], f64[3 * i + 2], 12); },
                        [&] { for (size_t i = 0; i < n; i++) narrow[i] = htm_lookup_f32(f32[3 * i], f32[3 * i + 1], f32[3 * i + 2], 12); }, 20);
    printf("refused as 8, ns each: from integers %.1f, from f64 %.1f, from f32 %.1f\n", whole.ours * 1000 / n, floats.ours * 1000 / n, floats.literal * 1000 / n);
    bool same = true;
    for (size_t i = 0; i < n; i++) same &= none[i] == 0 && wide[i] == -8 && narrow[i] == -8;
    return same;
}

// Catalogue lines of seven digits.
static bool line_row(size_t n, unsigned depth)
{
    std::mt19937_64 random(20261116);
    std::normal_distribution<double> normal;
    std::vector<std::string> lines;
    while (lines.size() < n) {
        double a = normal(random), b = normal(random), c = normal(random), q = sqrt(a * a + b * b + c * c);
        char line[64];
        snprintf(line, sizeof line, "%.7f %.7f %.7f\n", a / q, b / q, c / q);
        lines.push_back(line);
    }
    std::vector<int64_t> id(n), want(n);
    Times t = best([&] { for (size_t i = 0; i < n; i++) id[i] = htm_lookup_line((const uint8_t *)lines[i].data(), lines[i].size(), depth); },
                   [&] { for (size_t i = 0; i < n; i++) want[i] = literal::lookup_line(lines[i], depth); });
    return print(("lookups of lines at depth " + std::to_string(depth)).c_str(), n, t, id == want);
}

// The same index as C++ keeps it: the entries in a std::map by identifier, number and owner, and of each owner the identifiers in another one by number.
// It takes the identifiers from our own lookup, so that the row compares the keeping of entries alone.
struct MapIndex {
    std::map<std::tuple<uint64_t, uint32_t, uint32_t>, std::array<int32_t, 3>> entries;
    std::map<uint32_t, uint64_t> identifiers[2];
    int64_t add(uint32_t owner, uint32_t number, int32_t x, int32_t y, int32_t z)
    {
        if (owner > 1) return -18;
        uint64_t id = lookup(x, y, z, 12);
        if (id == 0) return -8;
        auto &own = identifiers[owner];
        if (own.count(number)) return -15;
        if (own.size() == 1024) return -16;
        own[number] = id;
        entries[{id, number, owner}] = {x, y, z};
        return 0;
    }
    int64_t remove(uint32_t owner, uint32_t number)
    {
        if (owner > 1) return -18;
        auto &own = identifiers[owner];
        auto i = own.find(number);
        if (i == own.end()) return -17;
        entries.erase({i->second, number, owner});
        own.erase(i);
        return 0;
    }
};

// An index that is full of both owners' exposures, of which in each turn the sixteen oldest are removed and sixteen others added: the time of each kind of
// call by itself. The owners take turns.
static bool index_rows(const std::vector<int32_t> &p)
{
    const size_t turns = 2000, some = 16, length = HTM_INDEX_LENGTH;
    std::vector<int64_t> list(length, 0);
    MapIndex map;
    auto owner = [](size_t i) { return (uint32_t)(i % 2); };
    auto number = [](size_t i) { return (uint32_t)(i / 2 * 2654435761u); };
    auto at = [&](size_t i) { return &p[3 * (i % (p.size() / 3))]; };
    auto added = [&](size_t i) { return htm_add(list.data(), length, owner(i), number(i), at(i)[0], at(i)[1], at(i)[2]) == 0; };
    auto mapped = [&](size_t i) { return map.add(owner(i), number(i), at(i)[0], at(i)[1], at(i)[2]) == 0; };
    bool same = true;
    size_t oldest = 0, next = 0;
    for (; next < 2048; next++) same &= added(next) && mapped(next);
    Times add, remove;
    for (int round = 0; round < 7; round++) {
        Times a = {0, 0}, r = {0, 0};
        for (size_t k = 0; k < turns; k++, oldest += some, next += some) {
            r.ours += us([&] { for (size_t i = oldest; i < oldest + some; i++) same &= htm_remove(list.data(), length, owner(i), number(i)) == 0; });
            a.ours += us([&] { for (size_t i = next; i < next + some; i++) same &= added(i); });
            r.literal += us([&] { for (size_t i = oldest; i < oldest + some; i++) same &= map.remove(owner(i), number(i)) == 0; });
            a.literal += us([&] { for (size_t i = next; i < next + some; i++) same &= mapped(i); });
        }
        add = {std::min(add.ours, a.ours), std::min(add.literal, a.literal)};
        remove = {std::min(remove.ours, r.ours), std::min(remove.literal, r.literal)};
    }
    same &= list[0] == (int64_t)map.entries.size();
    size_t k = 1;
    for (auto &e : map.entries) {
        same &= list[k++] == (int64_t)std::get<0>(e.first) && list[k++] == std::get<1>(e.first) && list[k++] == std::get<2>(e.first);
        for (int32_t c : e.second) same &= list[k++] == c;
    }
    same &= print("adds, at 2048 exposures", turns * some, add, same);
    return print("removals, at 2048 exposures", turns * some, remove, same);
}

// ---- frames

// Pointings up to some degrees away from the middle of the caps.
static std::vector<int32_t> points_around(size_t n, double degrees)
{
    std::mt19937_64 random(20261117);
    std::uniform_real_distribution<double> part(0, 1);
    Point u = unit(cross(MIDDLE, {0.1, 0.9, 0.3})), w = cross(MIDDLE, u);
    std::vector<int32_t> p;
    while (p.size() < 3 * n) {
        double away = degrees * part(random) * PI / 180, turn = 2 * PI * part(random), c = cos(away), a = sin(away) * cos(turn), b = sin(away) * sin(turn);
        int32_t x = lround((c * MIDDLE.x + a * u.x + b * w.x) * K), y = lround((c * MIDDLE.y + a * u.y + b * w.y) * K), z = lround((c * MIDDLE.z + a * u.z + b * w.z) * K);
        if (literal::is_vector(x, y, z)) { p.push_back(x); p.push_back(y); p.push_back(z); }
    }
    return p;
}

// An index, and its entries in order.
struct Filed {
    std::vector<int64_t> list = std::vector<int64_t>(HTM_INDEX_LENGTH, 0);
    std::vector<literal::Entry> entries;
    bool same = true;
    void add(uint32_t owner, const std::vector<int32_t> &p)
    {
        for (size_t i = 0; i < p.size(); i += 3) {
            uint32_t number = (uint32_t)(entries.size() * 2654435761u);
            uint64_t id = 0;
            same &= literal::lookup(p[i], p[i + 1], p[i + 2], 12, id) == 0 && htm_add(list.data(), list.size(), owner, number, p[i], p[i + 1], p[i + 2]) == 0;
            entries.push_back({id, number, owner, {p[i], p[i + 1], p[i + 2]}});
        }
        std::sort(entries.begin(), entries.end());
    }
};

// The frames of owner 0: the cover alone, the call, and what it takes beyond the cover, the best of some rounds each.
static bool frames_row(const std::string &name, const Bytes &file, const Filed &filed, int times, int rounds)
{
    literal::Region region;
    if (literal::read_file(file, region)) { printf("%-34s is no region file\n", name.c_str()); return false; }
    literal::Cover lists = literal::cover_region(region);
    literal::Frames want;
    std::vector<uint64_t> ranges(4 * literal::eff_budget(region.budget), UNTOUCHED), covered = ranges;
    std::vector<uint32_t> numbers(1024, (uint32_t)UNTOUCHED), all = numbers;
    uint64_t counts[2] = {0, 0}, six[6];
    int64_t answer = 0;
    auto make_cover = [&] { answer |= htm_cover(file.data(), file.size(), covered.data(), covered.size(), six, 6); };
    auto find = [&] { answer |= htm_frames(filed.list.data(), filed.list.size(), 0, file.data(), file.size(), ranges.data(), ranges.size(), numbers.data(), numbers.size(), counts, 2); };
    double cover = 1e18, frames = 1e18, walk = 1e18;
    for (int round = 0; round < rounds; round++) {
        cover = std::min(cover, us([&] { for (int k = 0; k < times; k++) make_cover(); }) / times);
        frames = std::min(frames, us([&] { for (int k = 0; k < times; k++) find(); }) / times);
        walk = std::min(walk, us([&] { for (int k = 0; k < times; k++) want = literal::frames(region, lists, filed.entries, 0); }) / times);
    }
    std::copy(want.numbers.begin(), want.numbers.end(), all.begin());
    bool same = filed.same && answer == 0 && ranges == covered && counts[0] == want.numbers.size() && counts[1] == want.tests && numbers == all;
    size_t held = 0;
    for (const literal::Entry &e : filed.entries) held += e.owner == 0 && literal::region_holds(region, e.p);
    same &= held == want.numbers.size();
    printf("%-34s %9zu %6zu %9.2f %9.2f %8.2f %12.2f%s\n", name.c_str(), (size_t)counts[0], (size_t)counts[1], cover, frames, frames - cover, walk,
           same ? "" : "  DIFFERS");
    return same;
}

// 1024 entries of owner 0, half of them anywhere and half up to twice as far from the middle as the cap goes.
static bool frames_rows()
{
    std::vector<int32_t> points = some_points(1536);
    printf("%-34s %9s %6s %9s %9s %8s %12s\n", "frames of 1024 entries", "delivered", "tests", "cover us", "frames us", "walk us", "literal walk");
    std::vector<int32_t> anywhere(points.begin(), points.begin() + 3 * 512), others(points.begin() + 3 * 512, points.begin() + 3 * 1536);
    bool same = true;
    for (int degrees : {1, 5, 30}) {
        Filed filed;
        filed.add(0, anywhere);
        filed.add(0, points_around(512, 2 * degrees));
        std::string name = "cap of " + std::to_string(degrees) + " degrees";
        int rounds = degrees == 30 ? 300 : 1000;
        same &= frames_row(name + ", budget 64", cap(degrees, 64), filed, 1, rounds);
        same &= frames_row(name + ", budget 2048", cap(degrees, 2048), filed, 1, rounds);
        if (degrees != 5) continue;
        filed.add(1, others);
        same &= frames_row("  beside 1024 of the other owner", cap(degrees, 64), filed, 1, rounds);
        same &= frames_row("  100 halfspaces in one convex", one_polygon(degrees, 100, 64), filed, 1, 100);
    }
    // The walk by itself: regions whose cover takes next to nothing.
    Filed filed;
    filed.add(0, anywhere);
    filed.add(0, points_around(512, 60));
    Bytes all, plane;
    begin(all, 12, 64); convex(all); halfspace(all, {0, 0, 1}, -1); convex(all); halfspace(all, {0, 0, -1}, -1); end(all);
    begin(plane, 1, 64); convex(plane); halfspace(plane, {0, 0, 1}, 0); halfspace(plane, {0, 0, -1}, 0); end(plane);
    same &= frames_row("everything", all, filed, 100, 50);
    return frames_row("a plane at depth 1", plane, filed, 100, 50) && same;
}

// ---- covers

// A small cover is made several times a round, a large one in fewer rounds.
static bool cover_row(const std::string &name, const Bytes &file, int times = 1, int rounds = 7)
{
    literal::Region region;
    if (literal::read_file(file, region)) { printf("%-34s is no region file\n", name.c_str()); return false; }
    size_t budget = literal::eff_budget(region.budget);
    literal::Cover cover;
    std::vector<uint64_t> out(4 * budget, UNTOUCHED), want = out;
    uint64_t counts[6] = {0, 0, 0, 0, 0, 0};
    int64_t answer = 0;
    Times t = best([&] { for (int k = 0; k < times; k++) answer = htm_cover(file.data(), file.size(), out.data(), out.size(), counts, 6); },
                   [&] { for (int k = 0; k < times; k++) { literal::Region r; if (!literal::read_file(file, r)) cover = literal::cover_region(r); } }, rounds);
    t.ours /= times; t.literal /= times;
    for (size_t k = 0; k < cover.outer.size(); k++) { want[2 * k] = cover.outer[k].first; want[2 * k + 1] = cover.outer[k].second; }
    for (size_t k = 0; k < cover.inner.size(); k++) { want[2 * (budget + k)] = cover.inner[k].first; want[2 * (budget + k) + 1] = cover.inner[k].second; }
    bool same = answer == 0 && counts[0] == cover.outer.size() && counts[1] == cover.inner.size() && counts[2] == cover.seen && counts[3] == cover.full
                && counts[4] == cover.partial && counts[5] == cover.swallowed && out == want;
    return print(name.c_str(), cover.seen, t, same);
}

// Covers of few trixels: what a call costs beside the trixels shows in them.
static bool small_rows()
{
    bool same = true;
    for (unsigned depth : {1u, 2u, 3u, 4u, 5u, 8u}) {
        std::string end = ", depth " + std::to_string(depth);
        int times = depth < 8 ? 1000 : 100;
        for (int degrees : {5, 30}) same &= cover_row("cap of " + std::to_string(degrees) + " degrees" + end, cap(degrees, 64, depth), times);
        same &= cover_row("polygon of 4 sides" + end, one_polygon(5, 4, 64, depth), times);
    }
    return same;
}

static bool large_rows()
{
    std::vector<int32_t> points = some_points(200000);
    bool same = lookup_row(points, 12);
    same &= report_row("the same from f64", points, 12, htm_lookup_f64);
    same &= report_row("the same from f32", points, 12, htm_lookup_f32);
    same &= refused_line(points);
    same &= line_row(200000, 12);
    same &= index_rows(points);
    for (unsigned budget : {64u, 256u, 2048u}) {
        std::string end = ", budget " + std::to_string(budget);
        for (int degrees : {1, 5, 30}) same &= cover_row("cap of " + std::to_string(degrees) + " degrees" + end, cap(degrees, budget));
        same &= cover_row("polygon of 4 sides" + end, one_polygon(5, 4, budget));
    }
    for (int sides : {10, 30, 100}) same &= cover_row(std::to_string(sides) + " halfspaces in one convex", one_polygon(5, sides, 64));
    same &= cover_row("512 halfspaces in 64 convexes", polygons(64, 1, 8, 64));
    return same;
}

static bool worst_rows()
{
    bool same = cover_row("64 bands between meridians", bands(64, 64), 1, 1);
    return cover_row("512 hemispheres, nearly equal", hemispheres(512, 64), 1, 1) && same;
}

// With the argument frames the second table only, with another one the covers of few trixels only.
int main(int argc, char **argv)
{
    bool all = argc < 2, frames = !all && strcmp(argv[1], "frames") == 0, same = true;
    if (!frames) {
        printf("%-34s %8s %9s %8s %10s %8s %6s\n", "covers, and lookups", "trixels", "ours us", "ns each", "literal us", "ns each", "ratio");
        same = !all || large_rows();
        same &= small_rows();
        if (all) same &= worst_rows();
    }
    if (all || frames) same &= frames_rows();
    printf("%s\n", same ? "all answers of both are equal" : "NOT EQUAL");
    return !same;
}
