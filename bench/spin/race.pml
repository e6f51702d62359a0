/* examples/race.f: two processes add to one variable, each three times. */
byte n, ended;

active [2] proctype add() {
    byte i, read;
    for (i : 1 .. 3) {
        read = n;
        n = read + 1
    }
    ended++
}

active proctype race() {
    (ended == 2);
    printf("%d\n", n)
}
