// Stands for the header of the parallel sort that iitii.h includes, which is not needed here: every
// input is sorted already. Debian's package of iitii does not bring that header along.
#pragma once
#include <algorithm>
namespace ips4o {
namespace parallel {
template <class It> void sort(It a, It b) {
    if (!std::is_sorted(a, b)) std::sort(a, b);
}
}
}
inline int omp_get_num_threads() { return 1; }
inline int omp_get_thread_num() { return 0; }
