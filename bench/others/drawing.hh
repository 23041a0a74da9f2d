// A drawing of lines and arcs: read from a text, as chords, with its area and length.
#pragma once

#include <cmath>
#include <fstream>
#include <sstream>
#include <stdexcept>
#include <string>
#include <vector>

struct Point {
    double x, y;
};

struct Vertex {
    double x, y, bulge;
};

struct Drawing {
    bool closed = false;
    double offset = 0, eps = 1e-5;
    std::vector<Vertex> vertices{};

    std::size_t segments() const { return vertices.size() - (closed ? 0 : 1); }
};

// The segment that leaves a vertex. A line has no sweep.
struct Segment {
    Point from, to;
    double sweep, radius = 0;
    Point centre{};

    Segment(const Drawing &drawing, std::size_t i)
    {
        const Vertex &a = drawing.vertices[i];
        const Vertex &b = drawing.vertices[(i + 1) % drawing.vertices.size()];
        from = {a.x, a.y};
        to = {b.x, b.y};
        sweep = 4 * std::atan(a.bulge);
        if (!is_arc())
            return;
        double dx = b.x - a.x, dy = b.y - a.y, beside = (1 - a.bulge * a.bulge) / (4 * a.bulge);
        centre = {(a.x + b.x) / 2 - dy * beside, (a.y + b.y) / 2 + dx * beside};
        radius = std::hypot(a.x - centre.x, a.y - centre.y);
    }

    bool is_arc() const { return sweep != 0; }

    double length() const { return is_arc() ? std::abs(sweep) * radius : std::hypot(to.x - from.x, to.y - from.y); }

    // Twice what it adds to the area of a closed drawing.
    double twice_area() const
    {
        double beyond_chord = is_arc() ? radius * radius * (sweep - std::sin(sweep)) : 0;
        return from.x * to.y - to.x * from.y + beyond_chord;
    }

    // Its start, and points on the arc so near that no chord lies farther from it than the tolerance.
    void chords(double tolerance, std::vector<Point> &points) const
    {
        points.push_back(from);
        if (!is_arc())
            return;
        double step = 2 * std::acos(1 - std::fmin(tolerance / radius, 1));
        int count = static_cast<int>(std::ceil(std::abs(sweep) / step));
        double start = std::atan2(from.y - centre.y, from.x - centre.x);
        for (int k = 1; k < count; k++) {
            double angle = start + sweep * k / count;
            points.push_back({centre.x + radius * std::cos(angle), centre.y + radius * std::sin(angle)});
        }
    }
};

inline double length(const Drawing &drawing)
{
    double sum = 0;
    for (std::size_t i = 0; i < drawing.segments(); i++)
        sum += Segment(drawing, i).length();
    return sum;
}

inline double arcs_length(const Drawing &drawing)
{
    double sum = 0;
    for (std::size_t i = 0; i < drawing.segments(); i++)
        if (Segment segment(drawing, i); segment.is_arc())
            sum += segment.length();
    return sum;
}

// Positive where the drawing runs counterclockwise.
inline double area(const Drawing &drawing)
{
    double twice = 0;
    for (std::size_t i = 0; i < drawing.segments(); i++)
        twice += Segment(drawing, i).twice_area();
    return twice / 2;
}

inline std::vector<Point> chords(const Drawing &drawing, double tolerance)
{
    std::vector<Point> points;
    for (std::size_t i = 0; i < drawing.segments(); i++)
        Segment(drawing, i).chords(tolerance, points);
    if (!drawing.closed)
        points.push_back({drawing.vertices.back().x, drawing.vertices.back().y});
    return points;
}

// By a right angle, counterclockwise.
inline Drawing turned(Drawing drawing)
{
    for (Vertex &v : drawing.vertices)
        v = {-v.y, v.x, v.bulge};
    return drawing;
}

// A text as rawoffset takes it.
inline Drawing read_drawing(const std::string &path)
{
    std::ifstream text(path);
    if (!text)
        throw std::runtime_error(path + " cannot be read");
    Drawing drawing;
    for (std::string line, word; std::getline(text, line);) {
        std::istringstream words(line);
        if (!(words >> word) || word[0] == '#')
            continue;
        if (word == "open" || word == "closed") {
            drawing.closed = word == "closed";
        } else if (word == "offset") {
            words >> drawing.offset;
        } else if (word == "eps") {
            words >> drawing.eps;
        } else {
            Vertex vertex{std::stod(word), 0, 0};
            words >> vertex.y >> vertex.bulge;
            drawing.vertices.push_back(vertex);
        }
    }
    return drawing;
}
