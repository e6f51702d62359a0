/* examples/barrier.f: no process goes on before all three have come. */
chan count = [1] of { byte };
chan open = [1] of { byte };
chan done = [1] of { byte };
byte m[3], l[3];

proctype part(byte me) {
    byte k, sum, i;
    m[me] = 10 * (me + 1);
    count?k;
    k = k + 1;
    count!k;
    if
    :: k == 3 -> open!1
    :: else
    fi;
    open?<i>;
    sum = m[0];
    sum = sum + m[1];
    sum = sum + m[2];
    l[me] = sum - m[me];
    done!1
}

init {
    byte i, j;
    count!0;
    for (i : 0 .. 2) {
        run part(i)
    }
    for (i : 0 .. 2) {
        done?j
    }
    printf("%d %d %d\n", l[0], l[1], l[2])
}
