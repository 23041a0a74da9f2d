// others DRAWING..: times the proved stage, Clipper and GEOS on the same drawings, texts as rawoffset takes them.
//
// They do not give the same. The stage gives the raw offset: arcs stay arcs, each segment that is locally invalid is
// flagged, and what crosses itself stays crossed, so it is no path to cut yet. The libraries trim: what comes out can
// be cut, but it is chords, and nothing says which segment they came from.
//
// The libraries have no arcs, so they are handed chords that lie at most TOLERANCE off. Making these is not timed, and
// neither is making GEOS's own form of them. Closed drawings are offset to their outside, open ones to their left; an
// open one Clipper can only surround. Lettering crosses itself, which is more work for them than a shop's outline is.
// Clipper's time goes with how many edges lie at one height, so each drawing is turned by a right angle first, and the
// long ones stand upright: lying, some took ten times as long and more.
//
// By turns the three work one right after another, each as often as takes about a millisecond; a drawing has a second,
// and at least three turns. A time is the median over the turns, a ratio the median of the turns' own ratios.
#include <algorithm>
#include <array>
#include <chrono>
#include <cstdio>

#include "sides.hh"

namespace {

// In the drawing's unit: a hundredth of the least offset.
constexpr double TOLERANCE = 1e-3;

enum { PROVED, CLIPPER, GEOS, SIDES };
constexpr const char *NAMES[SIDES] = {"proved", "Clipper", "GEOS"};

using Sides = std::array<std::unique_ptr<Side>, SIDES>;
using Numbers = std::array<double, SIDES>;

Sides sides_of(const Drawing &drawing, const std::vector<Point> &points)
{
    // the stage moves to the left where the offset is positive
    double way = drawing.closed && area(drawing) > 0 ? -1 : 1;
    double offset = way * drawing.offset;
    return {std::make_unique<Proved>(drawing, offset),
            std::make_unique<Clipper>(points, drawing.closed, offset, TOLERANCE),
            std::make_unique<Geos>(points, drawing.closed, offset, TOLERANCE)};
}

void hold(const char *what, const char *name, double given, double wanted, double within)
{
    std::printf("%-34s %-8s %12.6f, wanted %12.6f within %.6f\n", what, name, given, wanted, within);
    if (!(std::abs(given - wanted) <= within))
        throw std::runtime_error("that is not what was wanted");
}

// How far the libraries may be off: the tolerance along all that is round, and along all there is half a step of
// Clipper's whole numbers.
double slack(double round, double all)
{
    return TOLERANCE * round + Clipper::step(TOLERANCE) / 2 * all;
}

// Nothing of a convex drawing's outside is trimmed, so all three draw the same: by Steiner's formula its area grows by
// length times offset, and by a circle. The arcs of the drawing and those of the circle are chords.
void check_convex(const char *what, const Drawing &drawing)
{
    double offset = drawing.offset, circle = 2 * M_PI * offset;
    double wanted = std::abs(area(drawing)) + length(drawing) * offset + circle * offset / 2;
    double within = slack(arcs_length(drawing) + 2 * circle, length(drawing) + circle);
    Sides sides = sides_of(drawing, chords(drawing, TOLERANCE));
    for (int i = 0; i < SIDES; i++) {
        sides[i]->work();
        hold(what, NAMES[i], std::abs(sides[i]->area()), wanted, i == PROVED ? 1e-9 * wanted : within);
    }
}

// A corner of two lines that turns right: to its left nothing is trimmed. Clipper surrounds it.
void check_corner()
{
    const double run = 10, offset = 2;
    Drawing corner{false, offset, 1e-5, {{0, 0, 0}, {run, 0, 0}, {run, -run, 0}}};
    Sides sides = sides_of(corner, chords(corner, TOLERANCE));
    for (auto &side : sides)
        side->work();
    double round = M_PI / 2 * offset, wanted = 2 * run + round;
    hold("open corner: length", NAMES[PROVED], sides[PROVED]->length(), wanted, 1e-9 * wanted);
    hold("open corner: length", NAMES[GEOS], sides[GEOS]->length(), wanted, slack(round, wanted));
    // both runs, less the square that they share, a quarter circle at the corner, and half a circle at each end
    double around = 4 * run * offset + (1.25 * M_PI - 1) * offset * offset;
    hold("open corner, all around: area", NAMES[CLIPPER], sides[CLIPPER]->area(), around,
         slack(5 * round, 4 * run + 5 * round));
}

void check()
{
    const double b = std::tan(M_PI / 8);
    check_convex("square, outside: area", {true, 2, 1e-5, {{0, 0, 0}, {40, 0, 0}, {40, 40, 0}, {0, 40, 0}}});
    std::vector<Vertex> plate{{5, 0, 0},   {35, 0, b}, {40, 5, 0}, {40, 15, b},
                              {35, 20, 0}, {5, 20, b}, {0, 15, 0}, {0, 5, b}};
    check_convex("plate with fillets, outside: area", {true, 2, 1e-5, plate});
    check_corner();
}

double nanoseconds(Side &side, int times)
{
    auto start = std::chrono::steady_clock::now();
    for (int i = 0; i < times; i++)
        side.work();
    std::chrono::duration<double, std::nano> taken = std::chrono::steady_clock::now() - start;
    return taken.count() / times;
}

double median(std::vector<double> numbers)
{
    std::sort(numbers.begin(), numbers.end());
    return (numbers[(numbers.size() - 1) / 2] + numbers[numbers.size() / 2]) / 2;
}

struct Figures {
    int turns;
    Numbers time, ratio;
};

Figures measure(const Sides &sides)
{
    std::array<int, SIDES> times;
    double turn = 0;
    for (int i = 0; i < SIDES; i++) {
        double once = nanoseconds(*sides[i], 1);
        if (sides[i]->empty())
            throw std::runtime_error(std::string(NAMES[i]) + " draws nothing");
        times[i] = std::max(1, static_cast<int>(1e6 / once));
        turn += once * times[i];
    }
    int turns = std::clamp(static_cast<int>(1e9 / turn), 3, 100);
    std::array<std::vector<double>, SIDES> taken, ratios;
    for (int k = 0; k < turns; k++) {
        for (int i = 0; i < SIDES; i++)
            taken[i].push_back(nanoseconds(*sides[i], times[i]));
        for (int i = 0; i < SIDES; i++)
            ratios[i].push_back(taken[i].back() / taken[PROVED].back());
    }
    Figures figures{turns, {}, {}};
    for (int i = 0; i < SIDES; i++) {
        figures.time[i] = median(taken[i]);
        figures.ratio[i] = median(ratios[i]);
    }
    return figures;
}

void row(const std::string &path)
{
    Drawing drawing = turned(read_drawing(path));
    std::vector<Point> points = chords(drawing, TOLERANCE);
    double v = drawing.vertices.size();
    Figures figures = measure(sides_of(drawing, points));
    std::string name = path.substr(path.rfind('/') + 1);
    std::printf("%-26s %8.1f %6d %9.1f", name.substr(0, name.rfind('.')).c_str(), points.size() / v, figures.turns,
                figures.time[PROVED] / v);
    for (int i : {CLIPPER, GEOS})
        std::printf(" %10.0f %7.1f", figures.time[i] / v, figures.ratio[i]);
    std::printf("\n");
    std::fflush(stdout);
}

} // namespace

int main(int count, char **words)
{
    std::printf("Clipper %s, GEOS %s, chords at most %g off\n\n", CLIPPER_VERSION, GEOS_VERSION, TOLERANCE);
    try {
        check();
        std::printf("\nns a source vertex         chords/v  turns    proved    Clipper /proved       GEOS /proved\n");
        for (int i = 1; i < count; i++)
            row(words[i]);
    } catch (const std::exception &why) {
        std::fprintf(stderr, "others: %s\n", why.what());
        return 1;
    }
}
