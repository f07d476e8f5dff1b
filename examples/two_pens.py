"""two_pens.py: two pens of 3 and 4 heads, alone or together (7), and the gate between them. Once the gate is open,
both groups must have 7 heads: literals 0 and 2 follow, because of literal 5. After `./build-c target/c`:
    cc -shared -Wl,--whole-archive target/c/libzuntjev.a -Wl,--no-whole-archive -o target/c/libzuntjev.so
    python3 examples/two_pens.py target/c/libzuntjev.so"""
import ctypes, struct, sys

library = ctypes.CDLL(sys.argv[1])
STATE_LEN, CURSOR_LEN = 133440, 8

def lent(data):
    """A buffer of the host's, with its length beside it."""
    return ctypes.create_string_buffer(bytes(data), len(data)), ctypes.c_size_t(len(data))

def vertex(weight, sizes, lits):
    return struct.pack("<67i", weight, len(sizes), len(lits), *(sizes + [0] * 32)[:32], *(lits + [0] * 32)[:32])

vertices = lent(vertex(3, [3, 7], [0]) + vertex(4, [4, 7], [2]))
edges = lent(struct.pack("<3i", 0, 1, 4))
state, table, values = lent(bytes(STATE_LEN)), lent([0, 0, 4]), lent(bytes(4 * 3))  # variable 2 is false: literal 5
log, cursor, buffer = lent(bytes(16 * 3)), lent(bytes(CURSOR_LEN)), lent(bytes(2 * (1 + 2 * 2 + 4)))
count = ctypes.c_size_t
assert library.zuntjev_build(*vertices, count(2), *edges, count(1), 0, 0, *state) == 0
handed = library.zuntjev_propagate(*state, *table, *values, *log, *cursor, 5, 0)
for lit in struct.unpack_from("<%dH" % max(handed, 0), values[0]):
    n = library.zuntjev_calc_reason(*state, *log, *cursor, lit, *buffer)
    print("literal", lit, "follows from", *struct.unpack_from("<%dH" % max(n, 0), buffer[0]))
