// RocksDB's own reader and writer of data blocks (table/block_based/block.h, block_builder.h) as a
// contender. Its keys are internal keys, as in every table that RocksDB writes: the row's key, then eight
// bytes of sequence number and type.
#include "peer.h"

#include "db/dbformat.h"
#include "rocksdb/comparator.h"
#include "table/block_based/block.h"
#include "table/block_based/block_builder.h"
#include "table/format.h"
#include "util/coding.h"

#include <cstdlib>
#include <cstring>
#include <memory>
#include <string>
#include <vector>

using namespace ROCKSDB_NAMESPACE;

namespace {

const size_t kLongestTarget = 256;

Slice bytes(const uint8_t *at, size_t len) {
  return Slice(reinterpret_cast<const char *>(at), len);
}

std::string internal_key(const peer_row &row) {
  std::string key = bytes(row.key, row.key_len).ToString();
  PutFixed64(&key, PackSequenceAndType(row.seq, kTypeValue));
  return key;
}

__attribute__((always_inline)) inline void count(const DataBlockIter &it, peer_sums *sums) {
  Slice key = it.key();
  size_t key_len = key.size() - 8;
  uint64_t seq = DecodeFixed64(key.data() + key_len) >> 8;
  peer_count(sums, reinterpret_cast<const uint8_t *>(key.data()), key_len, it.value().size(), seq);
}

void must_be_ok(const Status &status) {
  if (!status.ok()) {
    abort();
  }
}

// One builder for all blocks of an interval, as a table has it.
BlockBuilder *builder(size_t interval) {
  static std::unique_ptr<BlockBuilder> only;
  static size_t its_interval;
  if (its_interval != interval) {
    only.reset(new BlockBuilder(static_cast<int>(interval)));
    its_interval = interval;
  }
  only->Reset();
  return only.get();
}

std::string contents;
std::unique_ptr<Block> block;
std::vector<std::string> prepared_keys;
const peer_row *prepared;

void open(DataBlockIter *it) {
  static const Comparator *order = BytewiseComparator();
  block->NewDataIterator(order, kDisableGlobalSequenceNumber, it);
}

}  // namespace

int peer_load(const peer_row *rows, size_t n, size_t, size_t interval) {
  BlockBuilder *b = builder(interval);
  for (size_t i = 0; i < n; i++) {
    b->Add(internal_key(rows[i]), bytes(rows[i].value, rows[i].value_len));
  }
  contents = b->Finish().ToString();
  block.reset(new Block(BlockContents(Slice(contents))));
  return 1;
}

peer_sums peer_forward() {
  peer_sums sums = {0, 0};
  DataBlockIter it;
  open(&it);
  for (it.SeekToFirst(); it.Valid(); it.Next()) {
    count(it, &sums);
  }
  must_be_ok(it.status());
  return sums;
}

peer_sums peer_backward() {
  peer_sums sums = {0, 0};
  DataBlockIter it;
  open(&it);
  for (it.SeekToLast(); it.Valid(); it.Prev()) {
    count(it, &sums);
  }
  must_be_ok(it.status());
  return sums;
}

// Of rows with one key the one with the greatest sequence number comes first: so the target stands before
// all of them, or for the last row at or below it after them.
peer_sums peer_seek(int descending, const uint8_t *target, size_t target_len) {
  peer_sums sums = {0, 0};
  char sought[kLongestTarget + 8];
  if (target_len > kLongestTarget) {
    abort();
  }
  memcpy(sought, target, target_len);
  uint64_t first = PackSequenceAndType(kMaxSequenceNumber, kValueTypeForSeek);
  EncodeFixed64(sought + target_len, descending ? 0 : first);
  Slice key(sought, target_len + 8);
  DataBlockIter it;
  open(&it);
  if (descending) {
    it.SeekForPrev(key);
  } else {
    it.Seek(key);
  }
  if (it.Valid()) {
    count(it, &sums);
  }
  return sums;
}

void peer_prepare(const peer_row *rows, size_t n, size_t) {
  prepared = rows;
  prepared_keys.clear();
  for (size_t i = 0; i + 1 < n; i++) {
    prepared_keys.push_back(internal_key(rows[i]));
  }
}

// As RocksDB's table builder: it hands the key before, and asks for the size after each row. The rows are
// those that fit into a block of slatedb's, which is the larger one.
size_t peer_build(size_t block_size, size_t interval) {
  BlockBuilder *b = builder(interval);
  size_t n = prepared_keys.size();
  Slice last;
  for (size_t i = 0; i < n; i++) {
    Slice key(prepared_keys[i]);
    b->AddWithLastKey(key, bytes(prepared[i].value, prepared[i].value_len), last);
    last = key;
    if (b->CurrentSizeEstimate() > 2 * block_size) {
      abort();
    }
  }
  return b->Finish().empty() ? 0 : n;
}
