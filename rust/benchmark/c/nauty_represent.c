/* A grid arranged by nauty's canonical labelling of a graph; src/nauty.rs says which. */
#define MAXN 64
#include <nauty/nauty.h>
#include <stddef.h>
#include <stdint.h>

static void join(graph *g, int u, int w)
{
    g[u] |= bit[w];
    g[w] |= bit[u];
}

/* 1 <= m <= 8, 1 <= n <= 16, top <= 15. Writes the orders, and the grid arranged by them. */
void nauty_represent(size_t m, size_t n, size_t top, const uint8_t *grid, uint8_t *out,
                     uint8_t *rows, uint8_t *columns)
{
    DEFAULTOPTIONS_GRAPH(options);
    statsblk stats;
    graph g[MAXN], canonical[MAXN];
    int lab[MAXN], ptn[MAXN], orbits[MAXN];

    int bits = 1;
    while (top >> bits != 0)
        bits++;
    int by_rows = m * bits + n <= n * bits + m;
    int layered = by_rows ? m : n;
    int single = by_rows ? n : m;
    int layers = layered * bits;
    int vertices = layers + single;

    for (int v = 0; v < vertices; v++) {
        g[v] = 0;
        lab[v] = v;
        ptn[v] = 1;
    }
    for (int l = 1; l <= bits; l++)
        ptn[l * layered - 1] = 0;
    ptn[vertices - 1] = 0;

    for (size_t i = 0; i < m; i++)
        for (size_t j = 0; j < n; j++) {
            int x = by_rows ? i : j, y = by_rows ? j : i;
            for (int l = 0; l < bits; l++)
                if (grid[i * n + j] >> l & 1)
                    join(g, l * layered + x, layers + y);
        }
    for (int v = 0; v + layered < layers; v++)
        join(g, v, v + layered);

    options.getcanon = TRUE;
    options.defaultptn = FALSE;
    densenauty(g, lab, ptn, orbits, &options, &stats, 1, vertices, canonical);

    uint8_t *first = by_rows ? rows : columns, *second = by_rows ? columns : rows;
    for (int x = 0; x < layered; x++)
        first[x] = lab[x];
    for (int y = 0; y < single; y++)
        second[y] = lab[layers + y] - layers;
    for (size_t i = 0; i < m; i++)
        for (size_t j = 0; j < n; j++)
            out[i * n + j] = grid[rows[i] * n + columns[j]];
}
