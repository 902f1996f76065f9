{
    for (i = 2; i <= 4; i++) {
        a = $1 % 500
        b = $i % 500
        if (a < 0) {
            a = -a
        }
        if (b < 0) {
            b = -b
        }
        if (a < b) {
            edge[a, ++out[a]] = b
            in_[b]++
        }
    }
}

NR == 4000 {
    exit
}

END {
    for (i = 0; i < 500; i++) {
        if (! in_[i]) {
            q[t++] = i
        }
    }
    while (h < t) {
        x = q[h++]
        done++
        for (k = 1; k <= out[x]; k++) {
            if (! --in_[edge[x, k]]) {
                q[t++] = edge[x, k]
            }
        }
    }
    print done
}
