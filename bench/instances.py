"""Instances that are made from seeds, the same on every machine, and the texts of their files."""


class Random:
    """Numbers from a seed (splitmix64, Steele, Lea and Flood 2014)."""

    def __init__(self, seed):
        self.state = seed

    def below(self, limit):
        self.state = (self.state + 0x9E3779B97F4A7C15) % 2**64
        z = self.state
        z = (z ^ z >> 30) * 0xBF58476D1CE4E5B9 % 2**64
        z = (z ^ z >> 27) * 0x94D049BB133111EB % 2**64
        return (z ^ z >> 31) * limit >> 64


# Texts of files


def line(word, numbers):
    return " ".join([str(word), *map(str, numbers)]) + "\n"


def knapsack_text(items, capacity):
    """A knapsack file of pairs of profit and weight."""
    return line(len(items), [capacity]) + "".join(line(profit, [weight]) for profit, weight in items)


COLUMNS = {
    "FULL_MATRIX": lambda row, n: range(n),
    "UPPER_ROW": lambda row, n: range(row + 1, n),
    "LOWER_ROW": lambda row, n: range(row),
    "UPPER_DIAG_ROW": lambda row, n: range(row, n),
    "LOWER_DIAG_ROW": lambda row, n: range(row + 1),
}


def tour_text(weights, form="FULL_MATRIX"):
    """A TSPLIB 95 file of a matrix of weights, in one of the explicit formats."""
    n = len(weights)
    kind = "ATSP" if form == "FULL_MATRIX" else "TSP"
    head = f"NAME: made\nTYPE: {kind}\nDIMENSION: {n}\nEDGE_WEIGHT_TYPE: EXPLICIT\n"
    rows = (" ".join(str(weights[i][j]) for j in COLUMNS[form](i, n)) + "\n" for i in range(n))
    return head + f"EDGE_WEIGHT_FORMAT: {form}\nEDGE_WEIGHT_SECTION\n{''.join(rows)}EOF\n"


def graph_text(graph):
    """A LAD graph, which is the sets of the successors of its vertices."""
    return f"{len(graph)}\n" + "".join(line(len(row), sorted(row)) for row in graph)


def flow_text(times):
    """A flow shop file of the times of each job on the machines in order."""
    return line(len(times), [len(times[0])]) + "".join(line(row[0], row[1:]) for row in times)


# Knapsacks. Profits and weights are up to `most`; the capacity is a share, in hundredths, of the weight of all items.


def packed(items, share):
    """The file of these items, with this share of their weight as the capacity."""
    return knapsack_text(items, sum(weight for _, weight in items) * share // 100)


def weakly_correlated(seed, n, most, share):
    """Profits within a tenth of `most` of the weights."""
    random = Random(seed)
    items = []
    for _ in range(n):
        weight = 1 + random.below(most)
        items.append((max(1, weight - most // 10 + random.below(most // 5 + 1)), weight))
    return packed(items, share)


def strongly_correlated(seed, n, most, share):
    """Each profit is its weight and a tenth of `most`."""
    random = Random(seed)
    weights = [1 + random.below(most) for _ in range(n)]
    return packed([(weight + most // 10, weight) for weight in weights], share)


def inverse_strongly_correlated(seed, n, most, share):
    """Each weight is its profit and a tenth of `most`."""
    random = Random(seed)
    profits = [1 + random.below(most) for _ in range(n)]
    return packed([(profit, profit + most // 10) for profit in profits], share)


# Tours


def random_tour(seed, n, most):
    """Weights up to `most`, the same in both directions."""
    random = Random(seed)
    weights = [[0] * n for _ in range(n)]
    for i in range(n):
        for j in range(i + 1, n):
            weights[i][j] = weights[j][i] = 1 + random.below(most)
    return tour_text(weights, "UPPER_ROW")


def planar_tour(seed, n, side):
    """Distances between points of a square, rounded to the nearest whole number."""
    random = Random(seed)
    points = [(random.below(side), random.below(side)) for _ in range(n)]
    weights = [[nearest_root((a - c) ** 2 + (b - d) ** 2) for c, d in points] for a, b in points]
    return tour_text(weights, "LOWER_DIAG_ROW")


def nearest_root(square):
    """The whole number nearest to the square root."""
    low = 0
    while (2 * low + 1) ** 2 <= 4 * square:
        low += 1
    return low


def asymmetric_tour(seed, n, most):
    """Weights up to `most`, of their own in each direction."""
    random = Random(seed)
    weights = [[0 if i == j else 1 + random.below(most) for j in range(n)] for i in range(n)]
    return tour_text(weights)


# Flow shops


def uniform_flow(seed, jobs, machines, most):
    """Times from 1 up to `most`, as Taillard's instances have them (1993)."""
    random = Random(seed)
    return flow_text([[1 + random.below(most) for _ in range(machines)] for _ in range(jobs)])


# Pairs of pattern and target without a map. Densities are in hundredths.


def random_graph(random, n, density, joined=lambda u, v: True):
    """A graph whose edges, among the pairs that may be joined, are drawn by the density."""
    graph = [set() for _ in range(n)]
    for u in range(n):
        for v in range(u + 1, n):
            if random.below(100) < density and joined(u, v):
                graph[u].add(v)
                graph[v].add(u)
    return graph


def denser_pattern(seed, sizes, densities):
    """Two random graphs, of which the pattern is denser than the target."""
    random = Random(seed)
    return [graph_text(random_graph(random, n, d)) for n, d in zip(sizes, densities)]


def clique_in_parts(seed, sizes, densities, clique):
    """A random pattern with a clique, and a random target of one part less, within which no vertices are joined."""
    random = Random(seed)
    pattern = random_graph(random, sizes[0], densities[0])
    for u in range(sizes[0] - clique, sizes[0]):
        pattern[u] |= set(range(sizes[0] - clique, sizes[0])) - {u}
        for v in pattern[u]:
            pattern[v].add(u)
    target = random_graph(random, sizes[1], densities[1], lambda u, v: u % (clique - 1) != v % (clique - 1))
    return [graph_text(pattern), graph_text(target)]


def circle_in_order(seed, sizes, densities):
    """A pattern of random arcs with a circle of arcs through its last vertices, and a target whose arcs all rise."""
    random = Random(seed)
    graphs = []
    for n, density in zip(sizes, densities):
        graphs.append([{v for v in range(u + 1, n) if random.below(100) < density} for u in range(n)])
    n = sizes[0]
    for u, v in ((n - 3, n - 2), (n - 2, n - 1), (n - 1, n - 3)):
        graphs[0][u].add(v)
    return [graph_text(graph) for graph in graphs]
