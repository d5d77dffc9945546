// Boost.Geometry's packed R-tree over the boxes of tiles, for each kind, dimension number and node capacity that is compared.
#include <boost/geometry.hpp>
#include <boost/geometry/geometries/box.hpp>
#include <boost/geometry/geometries/point.hpp>
#include <boost/geometry/index/rtree.hpp>
#include <cstdint>
#include <utility>
#include <vector>

namespace bg = boost::geometry;
namespace bgi = boost::geometry::index;

namespace {

// Takes the tiles found, in whatever order.
struct Keep {
    using iterator_category = std::output_iterator_tag;
    using value_type = void;
    using difference_type = void;
    using pointer = void;
    using reference = void;
    uint32_t **next;
    Keep &operator*() { return *this; }
    Keep &operator++() { return *this; }
    Keep &operator++(int) { return *this; }
    template <class Value> Keep &operator=(const Value &value)
    {
        *(*next)++ = value.second;
        return *this;
    }
};

struct Tree {
    virtual ~Tree() = default;
    virtual size_t query(size_t window, uint32_t *out) const = 0;
};

template <class T, size_t D, size_t I = 0> void put(bg::model::point<T, D, bg::cs::cartesian> &point, const double *ends)
{
    if constexpr (I < D) {
        bg::set<I>(point, static_cast<T>(ends[2 * I]));
        put<T, D, I + 1>(point, ends);
    }
}

template <class T, size_t D, size_t M> struct Packed : Tree {
    using Point = bg::model::point<T, D, bg::cs::cartesian>;
    using Box = bg::model::box<Point>;
    using Value = std::pair<Box, uint32_t>;
    std::vector<Box> windows;
    bgi::rtree<Value, bgi::rstar<M>> tree;

    static Box box(const double *ends)
    {
        Box made;
        put<T, D>(made.min_corner(), ends);
        put<T, D>(made.max_corner(), ends + 1);
        return made;
    }

    static std::vector<Value> values(const double *ends, size_t boxes)
    {
        std::vector<Value> made;
        for (size_t i = 0; i < boxes; i++)
            made.emplace_back(box(ends + 2 * D * i), static_cast<uint32_t>(i));
        return made;
    }

    Packed(const double *ends, size_t boxes, const double *window_ends, size_t window_number) : tree(values(ends, boxes))
    {
        for (size_t i = 0; i < window_number; i++)
            windows.push_back(box(window_ends + 2 * D * i));
    }

    size_t query(size_t window, uint32_t *out) const override
    {
        uint32_t *next = out;
        tree.query(bgi::intersects(windows[window]), Keep{&next});
        return next - out;
    }
};

template <class T, size_t D> Tree *of_capacity(size_t capacity, const double *e, size_t b, const double *we, size_t w)
{
    switch (capacity) {
    case 4: return new Packed<T, D, 4>(e, b, we, w);
    case 8: return new Packed<T, D, 8>(e, b, we, w);
    case 16: return new Packed<T, D, 16>(e, b, we, w);
    case 32: return new Packed<T, D, 32>(e, b, we, w);
    default: return nullptr;
    }
}

}

#define JOIN(a, b) a##b
#define NAMED(kind) JOIN(boost_make_, kind)

extern "C" {

// One file is compiled for each kind, with COORDINATE its type and KIND its name. Ends are low and high of each dimension in turn.
void *NAMED(KIND)(size_t dimensions, size_t capacity, const double *e, size_t b, const double *we, size_t w)
{
    switch (dimensions) {
    case 1: return of_capacity<COORDINATE, 1>(capacity, e, b, we, w);
    case 2: return of_capacity<COORDINATE, 2>(capacity, e, b, we, w);
    case 3: return of_capacity<COORDINATE, 3>(capacity, e, b, we, w);
    case 4: return of_capacity<COORDINATE, 4>(capacity, e, b, we, w);
    default: return nullptr;
    }
}

#ifdef COMMON
size_t boost_query(const void *tree, size_t window, uint32_t *out)
{
    return static_cast<const Tree *>(tree)->query(window, out);
}

void boost_free(void *tree)
{
    delete static_cast<Tree *>(tree);
}
#endif

}
