// The proved stage and two libraries, each with one job to work again and again.
#pragma once

#include <geos_c.h>
#include <memory>
#include <polyclipping/clipper.hpp>

#include "blidrosk.h"
#include "drawing.hh"

class Side {
public:
    virtual ~Side() = default;
    // Works the job, and keeps what came out until the next time.
    virtual void work() = 0;
    virtual bool empty() const = 0;
    virtual double area() const = 0;
    virtual double length() const = 0;
};

// The raw offset of the drawing itself: arcs stay arcs, and nothing is trimmed.
class Proved : public Side {
public:
    Proved(const Drawing &drawing, double offset)
        : closed(drawing.closed), offset(offset), eps(drawing.eps), room(2 * drawing.segments()), vertices(3 * room),
          flags(room), indexes(room), origins(room)
    {
        for (const Vertex &v : drawing.vertices)
            source.insert(source.end(), {v.x, v.y, v.bulge});
    }

    void work() override
    {
        uint32_t number =
            blidrosk_raw_offset(source.data(), source.size(), closed, offset, eps, vertices.data(), vertices.size(),
                                flags.data(), flags.size(), indexes.data(), indexes.size(), origins.data(),
                                origins.size(), answer);
        if (number != BLIDROSK_DONE)
            throw std::runtime_error("the stage refuses the job, number " + std::to_string(number));
    }

    bool empty() const override { return answer[BLIDROSK_VERTICES] == 0; }
    double area() const override { return ::area(drawn()); }
    double length() const override { return ::length(drawn()); }

private:
    Drawing drawn() const
    {
        Drawing drawing;
        drawing.closed = answer[BLIDROSK_CLOSED] == 1;
        for (uint32_t i = 0; i < answer[BLIDROSK_VERTICES]; i++)
            drawing.vertices.push_back({vertices[3 * i], vertices[3 * i + 1], vertices[3 * i + 2]});
        return drawing;
    }

    bool closed;
    double offset, eps;
    std::size_t room;
    std::vector<double> source, vertices;
    std::vector<uint8_t> flags;
    std::vector<uint32_t> indexes, origins;
    uint32_t answer[5] = {};
};

// Clipper works on whole numbers. It trims, and joins pieces that meet. An open path it can only surround.
class Clipper : public Side {
public:
    Clipper(const std::vector<Point> &points, bool closed, double offset, double tolerance)
        : scale(1 / step(tolerance)), offset(std::abs(offset)), tolerance(tolerance),
          end(closed ? ClipperLib::etClosedPolygon : ClipperLib::etOpenRound)
    {
        for (Point p : points)
            path.emplace_back(std::llround(p.x * scale), std::llround(p.y * scale));
    }

    // What a whole number stands for. With this, its faster arithmetic is good for 100,000 units.
    static double step(double tolerance) { return tolerance / 10; }

    void work() override
    {
        ClipperLib::ClipperOffset job(2, tolerance * scale);
        job.AddPath(path, ClipperLib::jtRound, end);
        job.Execute(drawn, offset * scale);
    }

    bool empty() const override { return drawn.empty(); }

    double area() const override
    {
        double sum = 0;
        for (const ClipperLib::Path &ring : drawn)
            sum += ClipperLib::Area(ring);
        return sum / (scale * scale);
    }

    double length() const override
    {
        double sum = 0;
        for (const ClipperLib::Path &ring : drawn)
            for (std::size_t i = 0, last = ring.size() - 1; i < ring.size(); last = i++)
                sum += std::hypot(ring[i].X - ring[last].X, ring[i].Y - ring[last].Y);
        return sum / scale;
    }

private:
    double scale, offset, tolerance;
    ClipperLib::EndType end;
    ClipperLib::Path path;
    ClipperLib::Paths drawn;
};

// GEOS offsets a closed drawing as a polygon, to its outside, and an open one as a curve, to one side. It trims.
class Geos : public Side {
public:
    Geos(const std::vector<Point> &points, bool closed, double offset, double tolerance)
        : closed(closed), offset(offset), source(nullptr, {handle.get()}), drawn(nullptr, {handle.get()})
    {
        double step = 2 * std::acos(1 - tolerance / std::abs(offset));
        quadrant = static_cast<int>(std::ceil(M_PI / 2 / step));
        std::vector<Point> line = points;
        if (closed)
            line.push_back(points.front());
        auto *numbers = GEOSCoordSeq_copyFromBuffer_r(handle.get(), &line[0].x, line.size(), 0, 0);
        source.reset(closed ? GEOSGeom_createPolygon_r(handle.get(), GEOSGeom_createLinearRing_r(handle.get(), numbers),
                                                       nullptr, 0)
                            : GEOSGeom_createLineString_r(handle.get(), numbers));
    }

    void work() override
    {
        drawn.reset(closed ? GEOSBufferWithStyle_r(handle.get(), source.get(), std::abs(offset), quadrant,
                                                   GEOSBUF_CAP_ROUND, GEOSBUF_JOIN_ROUND, 2)
                           : GEOSOffsetCurve_r(handle.get(), source.get(), offset, quadrant, GEOSBUF_JOIN_ROUND, 2));
    }

    bool empty() const override { return !drawn || GEOSisEmpty_r(handle.get(), drawn.get()) != 0; }

    double area() const override
    {
        double number = 0;
        GEOSArea_r(handle.get(), drawn.get(), &number);
        return number;
    }

    double length() const override
    {
        double number = 0;
        GEOSLength_r(handle.get(), drawn.get(), &number);
        return number;
    }

private:
    struct Finish {
        void operator()(GEOSContextHandle_t handle) const { GEOS_finish_r(handle); }
    };
    struct Destroy {
        GEOSContextHandle_t handle;
        void operator()(GEOSGeometry *geometry) const { GEOSGeom_destroy_r(handle, geometry); }
    };
    using Geometry = std::unique_ptr<GEOSGeometry, Destroy>;

    bool closed;
    double offset;
    int quadrant;
    std::unique_ptr<GEOSContextHandle_HS, Finish> handle{GEOS_init_r()};
    Geometry source, drawn;
};
