// libspatialindex's R-tree, bulk loaded, in memory, over the boxes of tiles.
#include <cstdint>
#include <memory>
#include <spatialindex/SpatialIndex.h>
#include <vector>

using namespace SpatialIndex;

namespace {

// The library wants two dimensions at least: one dimension gets a second one from 0 to 0.
uint32_t extended(uint32_t dimensions)
{
    return dimensions < 2 ? 2 : dimensions;
}

Region region(const double *ends, uint32_t dimensions)
{
    std::vector<double> low(extended(dimensions), 0.0), high(extended(dimensions), 0.0);
    for (uint32_t i = 0; i < dimensions; i++) {
        low[i] = ends[2 * i];
        high[i] = ends[2 * i + 1];
    }
    return Region(low.data(), high.data(), extended(dimensions));
}

// The boxes in tile order, for the bulk loader.
struct Boxes : IDataStream {
    const double *ends;
    size_t boxes;
    uint32_t dimensions;
    size_t next = 0;
    Boxes(const double *e, size_t b, uint32_t d) : ends(e), boxes(b), dimensions(d) {}
    IData *getNext() override
    {
        Region box = region(ends + 2 * dimensions * next, dimensions);
        return new RTree::Data(0, nullptr, box, static_cast<id_type>(next++));
    }
    bool hasNext() override { return next < boxes; }
    uint32_t size() override { return static_cast<uint32_t>(boxes); }
    void rewind() override { next = 0; }
};

// Takes the tiles found, in whatever order.
struct Keep : IVisitor {
    uint32_t *next;
    void visitNode(const INode &) override {}
    void visitData(const IData &data) override { *next++ = static_cast<uint32_t>(data.getIdentifier()); }
    void visitData(std::vector<const IData *> &) override {}
};

struct Tree {
    std::unique_ptr<IStorageManager> storage;
    std::unique_ptr<ISpatialIndex> index;
    std::vector<Region> windows;
};

}

extern "C" {

void *spatialindex_make(size_t dimensions, size_t capacity, const double *e, size_t b, const double *we, size_t w)
{
    uint32_t d = static_cast<uint32_t>(dimensions), c = static_cast<uint32_t>(capacity);
    auto tree = std::make_unique<Tree>();
    tree->storage.reset(StorageManager::createNewMemoryStorageManager());
    Boxes boxes(e, b, d);
    id_type id;
    tree->index.reset(RTree::createAndBulkLoadNewRTree(RTree::BLM_STR, boxes, *tree->storage, 0.99, c, c, extended(d), RTree::RV_RSTAR, id));
    for (size_t i = 0; i < w; i++)
        tree->windows.push_back(region(we + 2 * d * i, d));
    return tree.release();
}

size_t spatialindex_query(const void *tree, size_t window, uint32_t *out)
{
    const Tree *t = static_cast<const Tree *>(tree);
    Keep keep;
    keep.next = out;
    t->index->intersectsWithQuery(t->windows[window], keep);
    return keep.next - out;
}

void spatialindex_free(void *tree)
{
    delete static_cast<Tree *>(tree);
}

}
