// RocksDB's ribbon filter (Standard128Ribbon), to be timed beside `benches ribbon` and `benches parity`:
//
//     rocksdb_ribbon BITS KEYS ROUNDS BUILDS
//
// builds a filter of KEYS keys of 8 bytes BUILDS times, and asks ROUNDS times for each key and as many others. BITS is
// what NewRibbonFilterPolicy is given. It prints, in nanoseconds of processor time a key (the least of the rounds):
// the hashing and collecting of keys, the building, the query of a present and of an absent key; then the bytes of the
// filter, how many present keys were missed, and how many absent ones were let through.

#include <rocksdb/filter_policy.h>
#include <rocksdb/slice.h>
#include <rocksdb/status.h>
#include <rocksdb/table.h>
#include <rocksdb/version.h>
#include <time.h>

#include <algorithm>
#include <cstdint>
#include <cstdio>
#include <cstdlib>
#include <memory>
#include <vector>

#if ROCKSDB_MAJOR != 7
#error "the classes below are those of RocksDB 7; see table/block_based/filter_policy_internal.h"
#endif

// The public header only declares these two. Their members are those of RocksDB 7.8, in that order.
namespace ROCKSDB_NAMESPACE {

class FilterBitsBuilder {
 public:
  virtual ~FilterBitsBuilder() {}
  virtual void AddKey(const Slice& key) = 0;
  virtual size_t EstimateEntriesAdded() = 0;
  virtual Slice Finish(std::unique_ptr<const char[]>* buf) = 0;
  virtual Slice Finish(std::unique_ptr<const char[]>* buf, Status* status) = 0;
  virtual Status MaybePostVerify(const Slice& content) = 0;
  virtual size_t ApproximateNumEntries(size_t bytes) = 0;
};

class FilterBitsReader {
 public:
  virtual ~FilterBitsReader() {}
  virtual bool MayMatch(const Slice& entry) = 0;
  virtual void MayMatch(int num_keys, Slice** keys, bool* may_match) = 0;
};

}  // namespace ROCKSDB_NAMESPACE

using namespace ROCKSDB_NAMESPACE;

// The generator splitmix64 (Steele, Lea and Flood 2014), as in `benches`.
struct Random {
  uint64_t state;
  uint64_t next() {
    state += 0x9e3779b97f4a7c15;
    uint64_t z = state;
    z = (z ^ (z >> 30)) * 0xbf58476d1ce4e5b9;
    z = (z ^ (z >> 27)) * 0x94d049bb133111eb;
    return z ^ (z >> 31);
  }
};

static double now() {
  timespec at;
  clock_gettime(CLOCK_PROCESS_CPUTIME_ID, &at);
  return at.tv_sec * 1e9 + at.tv_nsec;
}

static Slice slice_of(const uint64_t& key) {
  return Slice(reinterpret_cast<const char*>(&key), sizeof(key));
}

// How many of the keys match, and the least time of a key.
static size_t ask(FilterBitsReader& reader, uint64_t seed, size_t keys, double& least) {
  Random random{seed};
  size_t matched = 0;
  const double before = now();
  for (size_t i = 0; i < keys; i++) {
    const uint64_t key = random.next();
    matched += reader.MayMatch(slice_of(key));
  }
  least = std::min(least, (now() - before) / keys);
  return matched;
}

int main(int count, char** words) {
  if (count != 5) return 2;
  const double bits = atof(words[1]);
  const size_t keys = atol(words[2]);
  const int rounds = atoi(words[3]);
  const int builds = atoi(words[4]);
  std::unique_ptr<const FilterPolicy> policy(NewRibbonFilterPolicy(bits, -1));
  BlockBasedTableOptions options;
  FilterBuildingContext context(options);
  double adding = 1e18, building = 1e18, present = 1e18, absent = 1e18;
  std::unique_ptr<const char[]> buffer;
  Slice filter;
  for (int i = 0; i < builds; i++) {
    std::unique_ptr<FilterBitsBuilder> builder(policy->GetBuilderWithContext(context));
    Random random{7};
    const double start = now();
    for (size_t k = 0; k < keys; k++) {
      const uint64_t key = random.next();
      builder->AddKey(slice_of(key));
    }
    const double added = now();
    filter = builder->Finish(&buffer);
    const double built = now();
    adding = std::min(adding, (added - start) / keys);
    building = std::min(building, (built - added) / keys);
  }
  std::unique_ptr<FilterBitsReader> reader(policy->GetFilterBitsReader(filter));
  size_t missed = 0, passed = 0;
  for (int i = 0; i < rounds; i++) {
    missed = keys - ask(*reader, 7, keys, present);
    passed = ask(*reader, 8, keys, absent);
  }
  printf("%.1f %.1f %.1f %.1f %zu %zu %zu\n", adding, building, present, absent, filter.size(), missed, passed);
  return 0;
}
