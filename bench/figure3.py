"""Figure 3 of the source on networkx. The command line has what is asked for and then tables: `sheet` is the
keep sheet, `halves` the line under half of each count, rounded down, `counts` the line under the counts. For
each table one line, the seconds that it took and the answer in hexadecimal."""

import struct
import sys
import time

import networkx


def read(path):
    with open(path, "rb") as file:
        table = file.read()
    numbers = struct.unpack(f"<{len(table) // 2}H", table)
    n, m = numbers[:2]
    counts = numbers[2 : 2 + n]
    sends = numbers[2 + n : 2 + n + 2 * m]
    receipts = numbers[2 + n + 2 * m :]
    pairs = lambda part: zip(part[::2], part[1::2])
    return counts, list(zip(pairs(sends), pairs(receipts)))


def checkpoint_graph(counts, messages):
    """Vertices are checkpoints, the new one of each process included; an edge for each message that was
    received, and from each checkpoint to the next of its process."""
    graph = networkx.DiGraph()
    for p, count in enumerate(counts):
        networkx.add_path(graph, [(p, c) for c in range(count + 1)])
    graph.add_edges_from((send, receipt) for send, receipt in messages if receipt[1] != 0)
    return graph


def line(graph, ceilings):
    """The latest consistent line under ceilings. What is marked is taken out of the graph: its edges have
    been followed."""
    graph = graph.copy()
    roots = list(ceilings)
    fresh = [(p, c) for p, c in enumerate(roots)]
    while fresh:
        for root in fresh:
            if root in graph:
                marked = networkx.descendants(graph, root)
                # Strictly reachable from itself: a table need not be a run that could have happened.
                if any(before in marked for before in graph.predecessors(root)):
                    marked.add(root)
                graph.remove_nodes_from(marked)
        fresh = []
        for p, c in enumerate(roots):
            if (p, c) not in graph:
                while (p, c) not in graph:
                    c -= 1
                roots[p] = c
                fresh.append((p, c))
    return roots


def of_holder(counts, holder):
    """The ceilings where one process holds."""
    return [count - (p == holder) for p, count in enumerate(counts)]


def packed(numbers):
    return struct.pack(f"<{len(numbers)}H", *numbers)


def line_under(counts, messages, ceilings):
    return packed(line(checkpoint_graph(counts, messages), ceilings))


def sheet(counts, messages):
    graph = checkpoint_graph(counts, messages)
    lines = [line(graph, of_holder(counts, p)) for p in range(len(counts))]
    states = sorted({(p, l[p]) for l in lines for p in range(len(counts)) if l[p] < counts[p]})
    positions = [
        k
        for k, ((j, y), (i, r)) in enumerate(messages)
        if r == 0 or any(y < l[j] and l[i] < r for l in lines)
    ]
    numbers = [len(states), len(positions)]
    numbers += [p for p, _ in states] + [c for _, c in states] + positions
    return packed(numbers)


ASKED = {
    "sheet": sheet,
    "halves": lambda counts, messages: line_under(counts, messages, [c // 2 for c in counts]),
    "counts": lambda counts, messages: line_under(counts, messages, counts),
}

asked = ASKED[sys.argv[1]]
for path in sys.argv[2:]:
    counts, messages = read(path)
    start = time.process_time()
    answer = asked(counts, messages)
    print(f"{time.process_time() - start:.6f} {answer.hex()}", flush=True)
