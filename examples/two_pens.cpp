// two_pens.cpp: two pens of 3 and 4 heads, alone or together (7), and the gate between them. Once the gate is open,
// both groups must have 7 heads: literals 0 and 2 follow, because of literal 5. After `./build-c target/c`:
//     c++ -std=c++11 -Itarget/c examples/two_pens.cpp target/c/libzuntjev.a -o target/c/two_pens
#include "zuntjev.h"
#include <iostream>
#include <vector>

int main() {
    std::vector<uint8_t> vertices(2 * ZUNTJEV_VERTEX_LEN), edges(ZUNTJEV_EDGE_LEN), state(ZUNTJEV_STATE_LEN);
    std::vector<uint8_t> table(3), list(ZUNTJEV_LIST_LEN_FOR(3)), log(ZUNTJEV_LOG_LEN_FOR(1, 2)), cursor(8);
    const int32_t alone_or_both[2][2] = {{3, 7}, {4, 7}}, lits[2] = {0, 2};
    for (size_t v = 0; v < 2; v++)
        zuntjev_put_vertex(vertices.data(), v, alone_or_both[v][0], alone_or_both[v], 2, &lits[v], 1);
    zuntjev_put_edge(edges.data(), 0, 0, 1, 4);
    int32_t answer = zuntjev_build(vertices.data(), vertices.size(), 2, edges.data(), edges.size(), 1, 0, 0,
                                   state.data(), state.size());
    table[2] = 4; // literal 5 is set: variable 2 is false, at the current level
    if (answer == 0)
        answer = zuntjev_propagate(state.data(), state.size(), table.data(), table.size(), list.data(), list.size(),
                                   log.data(), log.size(), cursor.data(), cursor.size(), 5, 0);
    for (int32_t i = 0; i < answer; i++)
        std::cout << "literal " << zuntjev_lit_at(list.data(), i) << " follows\n";
    return zuntjev_is_refused(answer);
}
