// What straight ways cost in a plain program without proofs: the reference of ways.sh, on the same machine.
//
// It does for a way that costs no more than the octile distance what `Searcher::way` of sim_path does: it compares labels,
// goes back from the goal by the first direction of the order from which such a way may come, marks cells to which none
// leads, keeps its rooms from call to call, and makes the first 64 points. It knows no other search, and says so where a way
// is not straight. Both cells are to be open, and two. Its grounds and pairs of cells are those of crates/timed_calls. It
// prints figures and asserts nothing.
#include <algorithm>
#include <chrono>
#include <cstdint>
#include <cstdio>
#include <cstdlib>
#include <vector>

namespace {

struct Cell {
    uint16_t x, z;
    bool operator==(const Cell &other) const { return x == other.x && z == other.z; }
};

// In 15.16 fixed point.
struct Point {
    int32_t x, z;
};

struct Way {
    std::vector<Point> points;
    bool whole = true;
};

// The directions in their order: E, N, W, S, NE, NW, SW, SE.
constexpr int step_x[8] = {1, 0, -1, 0, 1, -1, -1, 1};
constexpr int step_z[8] = {0, 1, 0, -1, 1, 1, -1, -1};

enum Ground { Open, Scattered, Buildings };

bool is_free(Ground ground, int x, int z) {
    switch (ground) {
    case Scattered: return (x * 7 + z * 13) % 11 != 0;
    case Buildings: return !(x % 16 >= 6 && x % 16 < 10 && z % 16 >= 6 && z % 16 < 10);
    default: return true;
    }
}

// A ground of 256 by 256 cells: a bit for each step that is allowed from a cell, and the labels of regions, which are all
// one here, since the open cells of each of these grounds are joined.
struct Grid {
    static constexpr int size = 256;
    std::vector<uint8_t> steps;
    std::vector<uint32_t> labels;

    explicit Grid(Ground ground) : steps(size * size), labels(size * size) {
        auto open = [&](int x, int z) { return x >= 0 && z >= 0 && x < size && z < size && is_free(ground, x, z); };
        for (int z = 0; z < size; z++)
            for (int x = 0; x < size; x++)
                for (int which = 0; which < 8; which++) {
                    int to_x = x + step_x[which], to_z = z + step_z[which];
                    if (open(to_x, to_z) && (which < 4 || (open(x, to_z) && open(to_x, z))))
                        steps[place({uint16_t(x), uint16_t(z)})] |= 1 << which;
                }
    }

    static size_t place(Cell cell) { return size_t(cell.z) * size + cell.x; }
};

class Searcher {
    std::vector<uint32_t> dead = std::vector<uint32_t>(Grid::size * Grid::size);
    uint32_t stamp = 0;
    std::vector<Cell> trail;

    // The cell in this direction, if a step leads there and it is not dead.
    bool is_live(const Grid &grid, Cell at, int which, Cell &from) const {
        if (!(grid.steps[Grid::place(at)] >> which & 1)) return false;
        from = {uint16_t(at.x + step_x[which]), uint16_t(at.z + step_z[which])};
        return dead[Grid::place(from)] != stamp;
    }

    // The first cell from which a straight way may come: along the longer side, or across.
    bool before(const Grid &grid, Cell start, Cell at, Cell &from) const {
        int x = int(start.x) - at.x, z = int(start.z) - at.z;
        if (std::abs(x) != std::abs(z)) {
            int along = std::abs(x) > std::abs(z) ? (x > 0 ? 0 : 2) : (z > 0 ? 1 : 3);
            if (is_live(grid, at, along, from)) return true;
        }
        int across = z > 0 ? (x > 0 ? 4 : 5) : (x > 0 ? 7 : 6);
        return x != 0 && z != 0 && is_live(grid, at, across, from);
    }

public:
    // Whether the way is straight; then its points are added.
    __attribute__((noinline)) bool way(const Grid &grid, Point start, Point goal, Way &out) {
        Cell from{uint16_t(start.x >> 16), uint16_t(start.z >> 16)}, to{uint16_t(goal.x >> 16), uint16_t(goal.z >> 16)};
        if (grid.labels[Grid::place(from)] != grid.labels[Grid::place(to)]) return false;
        stamp++;
        trail.clear();
        Cell at = to;
        for (int left = Grid::size * 2 + 64; !(at == from); left--) {
            Cell next{};
            if (left == 0) return false;
            if (before(grid, from, at, next)) {
                trail.push_back(at);
                at = next;
            } else {
                dead[Grid::place(at)] = stamp;
                if (trail.empty()) return false;
                at = trail.back();
                trail.pop_back();
            }
        }
        out.whole = trail.size() <= 64;
        out.points.reserve(std::min<size_t>(trail.size(), 64));
        for (auto cell = trail.rbegin(); cell != trail.rend() && out.points.size() < 64; ++cell)
            out.points.push_back(*cell == to ? goal : Point{(cell->x << 16) + 32768, (cell->z << 16) + 32768});
        return true;
    }
};

Point centre(int x, int z) { return {(x << 16) + 32768, (z << 16) + 32768}; }

void measure(const char *name, const Grid &grid, Point start, Point goal) {
    constexpr int rounds = 30, calls = 16;
    Searcher searcher;
    bool straight = false;
    double best = 1e18;
    for (int round = 0; round < rounds; round++) {
        auto begin = std::chrono::steady_clock::now();
        for (int call = 0; call < calls; call++) {
            Way way;
            straight = searcher.way(grid, start, goal, way);
        }
        std::chrono::duration<double, std::nano> taken = std::chrono::steady_clock::now() - begin;
        best = std::min(best, taken.count() / calls);
    }
    if (straight)
        std::printf("    %s: %.0f ns\n", name, best);
    else
        std::printf("    %s: not straight\n", name);
}

} // namespace

int main() {
    const char *names[] = {"Open", "Scattered", "Buildings"};
    for (Ground ground : {Open, Scattered, Buildings}) {
        Grid grid(ground);
        std::printf("256 by 256, %s, straight ways without proofs:\n", names[ground]);
        measure("far", grid, centre(1, 0), centre(255, 254));
        measure("middle", grid, centre(20, 20), centre(60, 44));
        measure("near", grid, centre(50, 40), centre(60, 44));
    }
}
