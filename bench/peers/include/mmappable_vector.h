// Stands for the header of the vector over a mapped file that iitii.h includes. This one is a
// vector in memory, as in the first version of iitii, so that no side reads a file.
#pragma once
#include <cerrno>
#include <vector>
namespace mmap_allocator_namespace {
enum access_mode { READ_WRITE_SHARED };
template <class T> struct mmappable_vector : std::vector<T> {
    void mmap_file(const char *, access_mode, size_t, size_t) {}
    void munmap_file() {}
};
}
