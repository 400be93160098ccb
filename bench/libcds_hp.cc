// The calls of libcds_mix.h on libcds's Michael hash set over hazard pointers, for bench/libcds.sh.
#include <cds/init.h>
#include <cds/gc/hp.h>
#include <cds/container/michael_list_hp.h>
#include <cds/container/michael_set.h>
#include <cstdint>
#include <cstdlib>
#include <functional>

using Gc = cds::gc::HP;
struct ListTraits : cds::container::michael_list::traits {
  using less = std::less<uint64_t>;
};
struct Hash {
  std::size_t operator()(uint64_t key) const { return key; }
};
struct SetTraits : cds::container::michael_set::traits {
  using hash = Hash;
  using item_counter = cds::atomicity::empty_item_counter; // it needn't count, as the other set doesn't
};
using Set = cds::container::MichaelHashSet<Gc, cds::container::MichaelList<Gc, uint64_t, ListTraits>, SetTraits>;

static Set* set;
static int insert_key(int, uint64_t key) { return set->insert(key); }
static int remove_key(int, uint64_t key) { return set->erase(key); }
static int has_key(int, uint64_t key) { return set->contains(key); }
static void begin_thread() { cds::threading::Manager::attachThread(); }
static void end_thread() { cds::threading::Manager::detachThread(); }

#include "libcds_mix.h"

int main(int count, char** words) {
  if (count != 6) return 2;
  cds::Initialize();
  int status;
  {
    Gc gc(Set::c_nHazardPtrCount, static_cast<unsigned>(std::atoi(words[1])) + 1, static_cast<unsigned>(std::atoi(words[5])));
    begin_thread();
    {
      Set all(63, 1); // 64 buckets: a power of two above this
      set = &all;
      status = all.bucket_count() == 64 ? mix(words) : 2;
    }
    end_thread();
  }
  cds::Terminate();
  return status;
}
