"""The processor's seconds of hashing so many bytes by SHA-256, the best of some turns.

`plain` is by a C program (bench/sha256.h) that has no instruction for it, as the SHA-256 of the kit has none; `openssl` is by
Python's hashlib, which is OpenSSL's, and several times faster on a processor that has such instructions."""
import hashlib, os, subprocess, tempfile, time

TURNS = 5
PLAIN = r"""
#include <stdlib.h>
#include <time.h>
#include "sha256.h"

int main(int argc, char **argv) {
    size_t length = strtoull(argv[1], NULL, 10);
    uint8_t *bytes = malloc(length);
    char hex[65];
    double best = 1e9;
    for (size_t i = 0; i < length; i++) bytes[i] = i;
    for (int turn = atoi(argv[2]); turn--;) {
        clock_t start = clock();
        sha256(bytes, length, hex);
        double spent = (double)(clock() - start) / CLOCKS_PER_SEC;
        if (spent < best) best = spent;
    }
    fprintf(stderr, "%s\n", hex);
    printf("%.9f\n", best);
    return 0;
}
"""


def plain(count):
    with tempfile.TemporaryDirectory() as folder:
        program = os.path.join(folder, "plain")
        subprocess.run(["cc", "-O2", "-I", os.path.dirname(os.path.abspath(__file__)), "-x", "c", "-", "-o", program],
                       input=PLAIN.encode(), check=True)
        ran = subprocess.run([program, str(count), str(TURNS)], check=True, capture_output=True, text=True)
    if ran.stderr.strip() != hashlib.sha256(bytes(range(256)) * (count // 256) + bytes(range(count % 256))).hexdigest():
        raise SystemExit("the C program's SHA-256 is another one")
    return float(ran.stdout)


def openssl(count):
    data, spent = bytes(count), []
    for _ in range(TURNS):
        before = time.process_time()
        hashlib.sha256(data).digest()
        spent.append(time.process_time() - before)
    return min(spent)
