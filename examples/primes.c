#include <stdio.h>

int is_prime(int n) {
    for (int d = 2; d * d <= n; d++)
        if (n % d == 0)
            return 0;
    return n > 1;
}

int main(void) {
    int count = 0, prime;
    for (int n = 1; n <= 50; n++) {
        prime = is_prime(n);
        if (prime) {
            printf("%d ", n);
            count++;
        }
    }
    printf("\n%d primes\n", count);
    potentialCheckpoint();
    return count;
}
