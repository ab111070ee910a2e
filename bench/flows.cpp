// Maximum flows by Dinic's algorithm, a plain C++ program: flows FILE TIMES. The file has networks as `bench_flow`
// writes them: nodes and arcs, then a line for each arc; 0 is the source and 1 the sink. Prints how many networks
// there are, the sum of their flows, and the least times of all with and without building, in microseconds.
#include <algorithm>
#include <chrono>
#include <cstdint>
#include <cstdio>
#include <cstdlib>
#include <vector>

struct Arc {
  uint32_t from, to;
  uint64_t cap;
};

struct Network {
  uint32_t nodes;
  std::vector<Arc> arcs;
};

// The residual network in compressed rows, whose memory is used again.
class Flow {
 public:
  void build(const Network& net) {
    nodes = net.nodes;
    const size_t halves = 2 * net.arcs.size();
    start.assign(nodes + 1, 0);
    for (const Arc& arc : net.arcs) {
      ++start[arc.from + 1];
      ++start[arc.to + 1];
    }
    for (uint32_t v = 0; v < nodes; ++v) start[v + 1] += start[v];
    current.assign(start.begin(), start.end() - 1);
    for (auto* list : {&head, &mate}) list->resize(halves);
    rest.resize(halves);
    for (const Arc& arc : net.arcs) {
      const uint32_t there = current[arc.from]++, back = current[arc.to]++;
      head[there] = arc.to, rest[there] = arc.cap, mate[there] = back;
      head[back] = arc.from, rest[back] = 0, mate[back] = there;
    }
    for (auto* list : {&level, &queue, &way}) list->resize(nodes);
  }

  uint64_t maximize() {
    uint64_t value = 0;
    while (search()) value += block();
    return value;
  }

 private:
  static constexpr uint32_t source = 0, sink = 1;

  // The levels of the nodes by their distance from the sink; none where they don't reach it.
  bool search() {
    std::fill(level.begin(), level.begin() + nodes, 0);
    uint32_t end = 0;
    level[sink] = 1;
    queue[end++] = sink;
    for (uint32_t at = 0; at < end; ++at) {
      const uint32_t v = queue[at];
      for (uint32_t i = start[v]; i < start[v + 1]; ++i) {
        const uint32_t u = head[i];
        if (level[u] || !rest[mate[i]]) continue;
        level[u] = level[v] + 1;
        if (u == source) return true;
        queue[end++] = u;
      }
    }
    return false;
  }

  bool leads_down(uint32_t v, uint32_t i) const { return rest[i] && level[head[i]] && level[head[i]] + 1 == level[v]; }

  // Raises the flow on the way to the sink by its least rest, and answers the place of the first arc that is full then.
  size_t push(size_t depth, uint64_t& value) {
    uint64_t least = UINT64_MAX;
    for (size_t i = 0; i < depth; ++i) least = std::min(least, rest[way[i]]);
    value += least;
    size_t full = depth;
    for (size_t i = depth; i-- > 0;) {
      rest[way[i]] -= least;
      rest[mate[way[i]]] += least;
      if (!rest[way[i]]) full = i;
    }
    return full;
  }

  uint64_t block() {
    std::copy(start.begin(), start.begin() + nodes, current.begin());
    uint64_t value = 0;
    size_t depth = 0;
    for (uint32_t v = source;;) {
      if (v == sink) {
        depth = push(depth, value);
        v = head[mate[way[depth]]];
        continue;
      }
      uint32_t& i = current[v];
      while (i < start[v + 1] && !leads_down(v, i)) ++i;
      if (i < start[v + 1]) {
        way[depth++] = i;
        v = head[i];
        continue;
      }
      if (v == source) return value;
      level[v] = 0;
      v = head[mate[way[--depth]]];
      ++current[v];
    }
  }

  uint32_t nodes = 0;
  std::vector<uint32_t> start, head, mate, level, current, queue, way;
  std::vector<uint64_t> rest;
};

std::vector<Network> read(const char* name) {
  std::vector<Network> networks;
  std::FILE* in = std::fopen(name, "rb");
  uint32_t nodes;
  size_t arcs;
  while (in && std::fscanf(in, "%u %zu", &nodes, &arcs) == 2) {
    Network net{nodes, std::vector<Arc>(arcs)};
    for (Arc& arc : net.arcs)
      if (std::fscanf(in, "%u %u %lu", &arc.from, &arc.to, &arc.cap) != 3) std::exit(1);
    networks.push_back(std::move(net));
  }
  return networks;
}

int main(int count, char** words) {
  if (count != 3) return 2;
  using Clock = std::chrono::steady_clock;
  const auto seconds = [](Clock::time_point a, Clock::time_point b) { return std::chrono::duration<double>(b - a).count(); };
  const std::vector<Network> networks = read(words[1]);
  Flow flow;
  double with = 1e9, without = 1e9;
  uint64_t value = 0;
  for (int turn = 0; turn <= std::atoi(words[2]); ++turn) {
    value = 0;
    double all = 0, alone = 0;
    for (const Network& net : networks) {
      if (net.nodes < 2) continue;
      const auto begin = Clock::now();
      flow.build(net);
      const auto built = Clock::now();
      value += flow.maximize();
      const auto end = Clock::now();
      all += seconds(begin, end);
      alone += seconds(built, end);
    }
    with = std::min(with, all);
    without = std::min(without, alone);
  }
  std::printf("%zu networks, value %lu, %.0f us, without building %.0f us\n", networks.size(), value, with * 1e6, without * 1e6);
}
