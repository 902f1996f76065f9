BEGIN {
    for (i = 1; i <= 400; i++) {
        for (j = 1; j <= 400; j++) {
            if (gcd(i, j) == 1) {
                n++
            }
        }
    }
    print n
}

function gcd(a, b)
{
    return (b ? gcd(b, a % b) : a)
}
