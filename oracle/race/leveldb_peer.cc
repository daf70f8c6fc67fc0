// LevelDB's own block reader and writer (table/block.h, table/block_builder.h) as a contender. Its keys are
// internal keys, as in every table that LevelDB writes: the row's key, then eight bytes of sequence number
// and type, in LevelDB's own order.
#include "peer.h"

#include "db/dbformat.h"
#include "leveldb/comparator.h"
#include "leveldb/iterator.h"
#include "leveldb/options.h"
#include "table/block.h"
#include "table/block_builder.h"
#include "table/format.h"
#include "util/coding.h"

#include <cstdlib>
#include <cstring>
#include <memory>
#include <string>
#include <vector>

using namespace leveldb;

namespace {

const size_t kLongestTarget = 256;

const InternalKeyComparator *comparator() {
  static const InternalKeyComparator order(BytewiseComparator());
  return &order;
}

Slice bytes(const uint8_t *at, size_t len) {
  return Slice(reinterpret_cast<const char *>(at), len);
}

std::string internal_key(const peer_row &row) {
  std::string key = bytes(row.key, row.key_len).ToString();
  PutFixed64(&key, (row.seq << 8) | kTypeValue);
  return key;
}

__attribute__((always_inline)) inline void count(const Iterator &it, peer_sums *sums) {
  Slice key = it.key();
  size_t key_len = key.size() - 8;
  uint64_t seq = DecodeFixed64(key.data() + key_len) >> 8;
  peer_count(sums, reinterpret_cast<const uint8_t *>(key.data()), key_len, it.value().size(), seq);
}

void must_be_ok(const Status &status) {
  if (!status.ok()) {
    abort();
  }
}

// One builder for all blocks, as a table has it.
Options options;

BlockBuilder *builder(size_t interval) {
  static BlockBuilder *only = (options.comparator = comparator(), new BlockBuilder(&options));
  options.block_restart_interval = static_cast<int>(interval);
  only->Reset();
  return only;
}

std::string contents;
std::unique_ptr<Block> block;
std::vector<std::string> prepared_keys;
const peer_row *prepared;

}  // namespace

int peer_load(const peer_row *rows, size_t n, size_t, size_t interval) {
  BlockBuilder *b = builder(interval);
  for (size_t i = 0; i < n; i++) {
    b->Add(internal_key(rows[i]), bytes(rows[i].value, rows[i].value_len));
  }
  contents = b->Finish().ToString();
  block.reset(new Block(BlockContents{contents, false, false}));
  return 1;
}

peer_sums peer_forward() {
  peer_sums sums = {0, 0};
  std::unique_ptr<Iterator> it(block->NewIterator(comparator()));
  for (it->SeekToFirst(); it->Valid(); it->Next()) {
    count(*it, &sums);
  }
  must_be_ok(it->status());
  return sums;
}

peer_sums peer_backward() {
  peer_sums sums = {0, 0};
  std::unique_ptr<Iterator> it(block->NewIterator(comparator()));
  for (it->SeekToLast(); it->Valid(); it->Prev()) {
    count(*it, &sums);
  }
  must_be_ok(it->status());
  return sums;
}

// Of rows with one key the one with the greatest sequence number comes first: so the target stands before
// all of them, or for the last row at or below it after them.
peer_sums peer_seek(int descending, const uint8_t *target, size_t target_len) {
  peer_sums sums = {0, 0};
  char sought[kLongestTarget + 8];
  if (target_len > kLongestTarget) {
    abort();
  }
  memcpy(sought, target, target_len);
  EncodeFixed64(sought + target_len, descending ? 0 : (kMaxSequenceNumber << 8) | kValueTypeForSeek);
  Slice key(sought, target_len + 8);
  std::unique_ptr<Iterator> it(block->NewIterator(comparator()));
  it->Seek(key);
  if (descending) {
    // LevelDB has no seek backwards; this is how its callers do it
    if (!it->Valid()) {
      it->SeekToLast();
    } else if (comparator()->Compare(it->key(), key) > 0) {
      it->Prev();
    }
  }
  if (it->Valid()) {
    count(*it, &sums);
  }
  return sums;
}

void peer_prepare(const peer_row *rows, size_t n, size_t) {
  prepared = rows;
  prepared_keys.clear();
  for (size_t i = 0; i + 1 < n; i++) {
    prepared_keys.push_back(internal_key(rows[i]));
  }
}

// A table asks for the size after each row. The rows are those that fit into a block of slatedb's, which is
// the larger one.
size_t peer_build(size_t block_size, size_t interval) {
  BlockBuilder *b = builder(interval);
  size_t n = prepared_keys.size();
  for (size_t i = 0; i < n; i++) {
    b->Add(prepared_keys[i], bytes(prepared[i].value, prepared[i].value_len));
    if (b->CurrentSizeEstimate() > 2 * block_size) {
      abort();
    }
  }
  return b->Finish().empty() ? 0 : n;
}
