/* examples/philos.f: three philosophers, each of whom takes its left fork and then its right one, twice. */
#define N 3

chan fork[N] = [1] of { byte };
chan meals = [1] of { byte };

proctype dine(byte left; byte right) {
    byte k, i, j;
    for (k : 1 .. 2) {
        fork[left]?i;
        fork[right]?j;
        fork[left]!i;
        fork[right]!j
    }
    meals!2
}

init {
    byte i, m, meal;
    for (i : 0 .. N - 1) {
        fork[i]!i + 1
    }
    for (i : 0 .. N - 1) {
        run dine(i, (i + 1) % N)
    }
    for (i : 1 .. N) {
        meals?meal;
        m = m + meal
    }
    printf("MEALS: %d\n", m)
}
